//! Document 01, Numbers that come back, with those of document 02. Its request 6 withdraws number 8: it is given to nothing else.

#[derive(Clone, Copy, Debug, PartialEq, Eq)]
pub enum Refusal {
    WrongIncoming,
    WrongOutgoing,
    WrongMode,
    WrongAddress,
    NoSectorNear,
    WrongPlace,
    SectionsUsedUp,
    WrongState,
    WrongSync,
    WrongEdc,
    WrongIntermediate,
    WrongP { codeword: usize },
    WrongQ { codeword: usize },
    WrongFiller,
    WrongCrc,
    WrongQMode,
    WrongField,
    WrongNumber,
    IllegalRun { run: usize },
    NoHeader,
    WrongPasses,
    UnknownPlace,
    NoSync,
    WrongRun { bit: usize },
    WrongHeader { bit: usize },
    WrongWord { bit: usize },
    WrongIdentification,
    WrongFrameEdc,
    ReservedBit,
    PastTheEnd,
}

use Refusal::*;

impl Refusal {
    /// The number in the table of document 01, or of a request in document 02.
    pub fn number(self) -> u8 {
        match self {
            WrongIncoming => 1,
            WrongOutgoing => 2,
            WrongMode => 3,
            WrongAddress => 4,
            NoSectorNear => 5,
            WrongPlace => 6,
            SectionsUsedUp => 7,
            WrongState => 9,
            WrongSync => 10,
            WrongEdc => 11,
            WrongIntermediate => 12,
            WrongP { .. } => 13,
            WrongQ { .. } => 14,
            WrongFiller => 15,
            WrongCrc => 16,
            WrongQMode => 17,
            WrongField => 18,
            WrongNumber => 19,
            IllegalRun { .. } => 20,
            NoHeader => 21,
            WrongPasses => 22,
            UnknownPlace => 23,
            NoSync => 24,
            WrongRun { .. } => 25,
            WrongHeader { .. } => 26,
            WrongWord { .. } => 27,
            WrongIdentification => 28,
            WrongFrameEdc => 29,
            ReservedBit => 30,
            PastTheEnd => 31,
        }
    }

    /// The value that comes with 13 and 14, the number of a codeword, with 20, the index of a run, and with 25 to 27, a bit position; no other number has one.
    pub fn value(self) -> Option<usize> {
        match self {
            WrongP { codeword } | WrongQ { codeword } => Some(codeword),
            IllegalRun { run } => Some(run),
            WrongRun { bit } | WrongHeader { bit } | WrongWord { bit } => Some(bit),
            _ => None,
        }
    }
}

/// What a refusal does to an outgoing buffer: zeros if its length is right, else nothing.
pub fn clear(out: &mut [u8], right: usize) {
    if out.len() == right {
        out.fill(0);
    }
}

#[cfg(test)]
mod tests {
    use super::*;

    #[test]
    fn only_a_buffer_of_the_right_length_is_cleared() {
        let mut buffer = [0xAA; 5];
        clear(&mut buffer, 4);
        assert_eq!(buffer, [0xAA; 5]);
        clear(&mut buffer, 5);
        assert_eq!(buffer, [0; 5]);
    }

    #[test]
    fn numbers_differ_and_six_have_a_value() {
        let all = [
            WrongIncoming,
            WrongOutgoing,
            WrongMode,
            WrongAddress,
            NoSectorNear,
            WrongPlace,
            SectionsUsedUp,
            WrongState,
            WrongSync,
            WrongEdc,
            WrongIntermediate,
            WrongP { codeword: 85 },
            WrongQ { codeword: 51 },
            WrongFiller,
            WrongCrc,
            WrongQMode,
            WrongField,
            WrongNumber,
            IllegalRun { run: 4 },
            NoHeader,
            WrongPasses,
            UnknownPlace,
            NoSync,
            WrongRun { bit: 1 },
            WrongHeader { bit: 2 },
            WrongWord { bit: 3 },
            WrongIdentification,
            WrongFrameEdc,
            ReservedBit,
            PastTheEnd,
        ];
        let numbers: Vec<u8> = all.iter().map(|r| r.number()).collect();
        assert_eq!(
            numbers,
            [
                1, 2, 3, 4, 5, 6, 7, 9, 10, 11, 12, 13, 14, 15, 16, 17, 18, 19, 20, 21, 22, 23, 24,
                25, 26, 27, 28, 29, 30, 31
            ]
        );
        let values: Vec<usize> = all.iter().filter_map(|r| r.value()).collect();
        assert_eq!(values, [85, 51, 4, 1, 2, 3]);
    }
}
