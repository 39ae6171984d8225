//! Document 02, 13: the addresses of the empty Sectors of a dump.

use crate::sector::{judge, Passed, LENGTH};

/// What the program prints for this standard input.
pub fn empties(input: &[u8]) -> String {
    let mut text = String::new();
    for sector in input.chunks_exact(LENGTH) {
        if let Ok(Passed { mode: 0, address: [minute, second, frame] }) = judge(sector) {
            text += &format!("{minute:02X}{second:02X}{frame:02X}\n");
        }
    }
    text
}

#[cfg(test)]
mod tests {
    use super::*;
    use crate::sector::{empty, write};

    #[test]
    fn a_line_for_each_empty_sector() {
        let mut other = vec![0; LENGTH];
        write(2, [0x00, 0x02, 0x01], &[0; 2336], &mut other).unwrap();
        let input = [empty([0x00, 0x02, 0x00]), other, empty([0x99, 0x59, 0x74])].concat();
        assert_eq!(empties(&input), "000200\n995974\n");
    }

    #[test]
    fn capitals_in_a_lead_in() {
        assert_eq!(empties(&empty([0xA0, 0x00, 0x00])), "A00000\n");
        assert_eq!(empties(&empty([0xF9, 0x59, 0x74])), "F95974\n");
        assert_eq!(empties(&empty([0xFA, 0x00, 0x00])), "");
    }

    #[test]
    fn nothing_for_a_faulty_one_or_a_tail() {
        for at in [0, 11, 13, 15, 16, 2351] {
            let mut sector = empty([0x00, 0x02, 0x00]);
            sector[at] = 0x60;
            assert_eq!(empties(&sector), "", "byte {at}");
        }
        assert_eq!(empties(&empty([0x00, 0x02, 0x00])[..LENGTH - 1]), "");
        assert_eq!(empties(&[]), "");
    }
}
