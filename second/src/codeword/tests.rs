//! Annexes A.3 and C.7: sums and parity.

mod filled;
mod near;

use super::*;
use crate::random::Random;

/// Length, sums and first parity byte of the four codes: P, Q, C2, C1.
const CODES: [(usize, usize, usize); 4] = [(26, 2, 24), (45, 2, 43), (28, 4, 12), (32, 4, 28)];

fn some_codeword(random: &mut Random, (length, sums, parity): (usize, usize, usize)) -> Vec<u8> {
    let mut word = random.bytes(length);
    fill(&mut word, parity, sums);
    word
}

fn damaged(random: &mut Random, word: &[u8], count: usize) -> Vec<u8> {
    let mut damaged = word.to_vec();
    for place in random.places(count, word.len()) {
        damaged[place] ^= random.change();
    }
    damaged
}

fn changes(a: &[u8], b: &[u8]) -> usize {
    a.iter().zip(b).filter(|(x, y)| x != y).count()
}

#[test]
fn figure_of_a_change_by_01_in_row_1_of_a_p_codeword() {
    let mut word = some_codeword(&mut Random::new(1), CODES[0]);
    word[1] ^= 0x01;
    assert_eq!((sum(0, &word), sum(1, &word)), (0x01, 0x8F));
}

/// The rows of the matrices of Annex C.7: exponents 31, 62, 93 at the first place, 3, 6, 9 at the fourth last, 0 at the last.
#[test]
fn weights_of_annex_c() {
    for j in 0..4 {
        assert_eq!(weight(j, 0, 32), power(31 * j));
        assert_eq!(weight(j, 0, 28), power(27 * j));
        assert_eq!(weight(j, 28, 32), power(3 * j));
        assert_eq!(weight(j, 31, 32), 1);
    }
}

#[test]
fn filled_words_are_codewords_and_keep_their_other_bytes() {
    let mut random = Random::new(2);
    for (length, sums, parity) in CODES {
        for _ in 0..200 {
            let before = random.bytes(length);
            let mut word = before.clone();
            fill(&mut word, parity, sums);
            assert!(is_codeword(&word, sums));
            for place in (0..length).filter(|i| !(parity..parity + sums).contains(i)) {
                assert_eq!(word[place], before[place]);
            }
        }
    }
}

#[test]
fn only_one_pair_of_parity_bytes_fits() {
    let word = some_codeword(&mut Random::new(3), CODES[0]);
    let mut fits = Vec::new();
    for a in 0..=255 {
        for b in 0..=255 {
            let mut tried = word.clone();
            (tried[24], tried[25]) = (a, b);
            if is_codeword(&tried, 2) {
                fits.push(tried);
            }
        }
    }
    assert_eq!(fits, [word]);
}
