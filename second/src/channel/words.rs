//! ECMA-130, clauses 19.1 and 19.2 and Annex D; document 01, Channel bits: words, SYNC 0 and 1, Sync Header.

use super::annex_d::PRINTED;
use std::sync::LazyLock;

/// 14 Channel bits, each 0 or 1, in the order in which they are sent.
pub type Word = [u8; 14];

pub const SYNC_0: Word = [0, 0, 1, 0, 0, 0, 0, 0, 0, 0, 0, 0, 0, 1];
pub const SYNC_1: Word = [0, 0, 0, 0, 0, 0, 0, 0, 0, 1, 0, 0, 1, 0];
pub const SYNC_HEADER: [u8; 24] =
    [1, 0, 0, 0, 0, 0, 0, 0, 0, 0, 0, 1, 0, 0, 0, 0, 0, 0, 0, 0, 0, 0, 1, 0];

/// The digits of a text such as 100.
pub fn digits(text: &str) -> Vec<u8> {
    text.bytes().map(|digit| digit - b'0').collect()
}

/// What the text of Annex D has for each byte; some of it is damaged and has 15 digits.
pub fn printed() -> Vec<Vec<u8>> {
    let columns: Vec<&str> = PRINTED.split_whitespace().collect();
    let mut words = vec![Vec::new(); 256];
    for pair in columns.chunks(2) {
        let byte = usize::from_str_radix(pair[0], 2).unwrap();
        words[byte] = digits(pair[1]);
    }
    words
}

/// A ONE moved from one digit to another; digits are counted from 1.
fn moved(mut word: Vec<u8>, from: usize, to: usize) -> Vec<u8> {
    word[from - 1] = 0;
    word[to - 1] = 1;
    word
}

/// The words of all 256 bytes, with (48) to (6A) as document 01 has them.
fn corrected() -> Vec<Word> {
    let mut words = printed();
    for byte in 0x48..=0x57 {
        words[byte] = words[byte - 0x40].clone();
        words[byte][12 - 1] = 1;
    }
    for byte in 0x58..=0x5F {
        words[byte] = moved(words[byte - 0x20].clone(), 11, 12);
    }
    for byte in 0x60..=0x6A {
        words[byte] = moved(words[byte - 0x20].clone(), 12, 13);
    }
    words[0x66] = digits("01000000100100");
    words.into_iter().map(|word| word.try_into().expect("14 digits")).collect()
}

static WORDS: LazyLock<Vec<Word>> = LazyLock::new(corrected);

/// For each number of 14 digits the byte whose word it is, if there is one.
static BYTES: LazyLock<Vec<Option<u8>>> = LazyLock::new(|| {
    let mut bytes = vec![None; 1 << 14];
    for (byte, word) in words().iter().enumerate() {
        bytes[number(word)] = Some(byte as u8);
    }
    bytes
});

fn number(word: &[u8]) -> usize {
    word.iter().fold(0, |number, &digit| 2 * number + digit as usize)
}

pub fn words() -> &'static [Word] {
    &WORDS
}

/// The byte whose word these 14 digits are.
pub fn byte_of(word: &[u8]) -> Option<u8> {
    BYTES[number(word)]
}

#[cfg(test)]
mod tests {
    use super::*;

    fn text(word: &[u8]) -> String {
        word.iter().map(|digit| digit.to_string()).collect()
    }

    /// The numbers of ZEROs between one ONE and the next.
    fn runs(bits: &[u8]) -> Vec<usize> {
        let ones: Vec<usize> = (0..bits.len()).filter(|&n| bits[n] == 1).collect();
        ones.windows(2).map(|pair| pair[1] - pair[0] - 1).collect()
    }

    #[test]
    fn figures() {
        assert_eq!(text(&words()[0x59]), "10000000000100");
        assert_eq!(text(&SYNC_0), "00100000000001");
        assert_eq!(text(&SYNC_1), "00000000010010");
        assert_eq!(text(&SYNC_HEADER), "100000000001000000000010");
    }

    #[test]
    fn a_word_is_known_by_its_byte() {
        for byte in 0..=255 {
            assert_eq!(byte_of(&words()[byte as usize]), Some(byte));
        }
        assert_eq!(BYTES.iter().flatten().count(), 256);
    }

    #[test]
    fn facts_of_all_256() {
        let words = words();
        assert_eq!(words.len(), 256);
        let mut different = words.to_vec();
        different.sort();
        different.dedup();
        assert_eq!(different.len(), 256);
        assert!(!words.contains(&SYNC_0) && !words.contains(&SYNC_1));
        for word in words {
            assert!(word.contains(&1));
            assert!(runs(word).iter().all(|run| (2..=10).contains(run)));
        }
    }

    /// Outside (48) to (6A) nothing moves. Inside, a printed word of 15 digits has one ZERO too many, but for (66), which
    /// that would make the word of (E6); and the printed word of (58) is that of (38).
    #[test]
    fn corrections_and_what_is_printed() {
        let (printed, words) = (printed(), words());
        for byte in 0..256 {
            let (old, new) = (&printed[byte], &words[byte]);
            let repairs = |word: &[u8]| {
                (0..15).any(|n| old[n] == 0 && [&old[..n], &old[n + 1..]].concat() == word)
            };
            match byte {
                0x58 => assert_eq!(*old, words[0x38]),
                0x66 => assert!(repairs(&words[0xE6]) && !repairs(new)),
                0x48..=0x6A => assert!(repairs(new), "{byte:02X}"),
                _ => assert_eq!(old, new),
            }
        }
        assert_eq!(text(&words[0x58]), "01001000000100");
        assert_eq!(text(&words[0x66]), "01000000100100");
    }

    /// No word begins or ends with more than eight ZEROs, so that no run of ten can be left open at its end.
    #[test]
    fn ends_of_words() {
        for word in words() {
            let first = word.iter().position(|&bit| bit == 1).unwrap();
            let last = word.iter().rev().position(|&bit| bit == 1).unwrap();
            assert!(first <= 8 && last <= 8);
        }
    }
}
