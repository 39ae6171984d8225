//! Proved scrambling and F1-frames against this program, which makes the sequence by the register.

use crate::of_lengths;
use second::proved::{self, number_of};
use second::random::Random;
use second::refusal::Refusal;
use second::scrambling::{cut, join, scramble, sequence};
use second::sector::LENGTH;

type Step = fn(&[u8], &mut [u8]) -> Result<(), Refusal>;
type ProvedStep = fn(&[u8], &mut [u8]) -> u8;

const STEPS: [(Step, ProvedStep); 3] =
    [(scramble, proved::scramble), (cut, proved::cut), (join, proved::join)];

/// Both steps from buffers that held (AA): the same answer and the same bytes.
fn same(step: (Step, ProvedStep), incoming: &[u8], out_length: usize) -> (u8, Vec<u8>) {
    let (mut expected, mut found) = (vec![0xAA; out_length], vec![0xAA; out_length]);
    let answer = number_of((step.0)(incoming, &mut expected));
    assert_eq!((step.1)(incoming, &mut found), answer);
    assert!(found == expected);
    (answer, found)
}

#[test]
fn random_sectors() {
    let mut random = Random::new(1);
    for _ in 0..2_000 {
        let sector = random.bytes(LENGTH);
        for step in STEPS {
            assert_eq!(same(step, &sector, LENGTH).0, 0);
        }
    }
}

/// A Sector of zeros becomes the whole table.
#[test]
fn the_table() {
    let (_, found) = same(STEPS[0], &[0; LENGTH], LENGTH);
    assert_eq!(found[..12], [0; 12]);
    assert_eq!(found[12..], sequence());
}

/// All pairs of lengths near the right one, and some far from it: 1 before 2.
#[test]
fn lengths() {
    let mut random = Random::new(2);
    let mut lengths: Vec<usize> = (LENGTH - 12..=LENGTH + 12).collect();
    lengths.extend([0, 1, 24, 2340, 2 * LENGTH]);
    for &incoming in &lengths {
        for &outgoing in &lengths {
            let bytes = random.bytes(incoming);
            let expected = of_lengths(incoming == LENGTH, outgoing == LENGTH);
            for step in STEPS {
                assert_eq!(same(step, &bytes, outgoing).0, expected);
            }
        }
    }
}

/// Down and up again through the proved steps alone.
#[test]
fn there_and_back() {
    let mut random = Random::new(3);
    for _ in 0..200 {
        let sector = random.bytes(LENGTH);
        let mut buffers = [[0xAA; LENGTH]; 4];
        let [scrambled, frames, joined, back] = &mut buffers;
        assert_eq!(proved::scramble(&sector, scrambled), 0);
        assert_eq!(proved::cut(scrambled, frames), 0);
        assert_eq!(proved::join(frames, joined), 0);
        assert_eq!(proved::scramble(joined, back), 0);
        assert!(*back == sector[..]);
        assert!(*scrambled != sector[..] && *frames != *scrambled);
    }
}
