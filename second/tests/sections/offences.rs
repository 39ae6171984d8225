//! Judging: one offence or more of each kind at any place of a partner's Sections.

use super::partner::*;
use super::*;
use second::channel::words::{SYNC_0, SYNC_1, SYNC_HEADER};

/// A bit of the stream: anywhere, about the borders of Sections, at the beginning or at the very end.
fn some_bit(random: &mut Random, length: usize) -> usize {
    match random.below(4) {
        0 => random.below(length),
        1 => {
            (BITS * random.below(length / BITS + 1) + random.below(80)).clamp(40, length + 39) - 40
        }
        2 => random.below(60),
        _ => length - 1 - random.below(60),
    }
}

/// One offence of some kind: two ONEs too near, too many ZEROs, a Sync Header too many, one lost, a word, a SYNC, or just a bit.
fn offend(random: &mut Random, bits: &mut [u8]) {
    let at = some_bit(random, bits.len());
    let frame = at / 588 * 588;
    match random.below(7) {
        0 => put(bits, at, &[1, 0, 0, 1][random.below(3)..]),
        1 => put(bits, at, &vec![0; 9 + random.below(6)]),
        2 => put(bits, at, &SYNC_HEADER),
        3 => bits[frame + random.below(24)] ^= 1,
        4 => {
            let word: Vec<u8> = (0..14).map(|_| (random.below(4) == 0) as u8).collect();
            put(bits, frame + 27 + 17 * random.below(33), &word);
        }
        5 => put(bits, frame + 27, [&SYNC_0, &SYNC_1][random.below(2)]),
        _ => bits[at] ^= 1,
    }
}

/// One to three offences at once in Sections of ours or a partner's.
#[test]
fn offences_anywhere() {
    let mut random = Random::new(3);
    let mut met = [0; 28];
    for count in [1, 2, 3] {
        let clean = partner(&mut random, count);
        for _ in 0..600 {
            let mut bits = clean.clone();
            for _ in 0..1 + random.below(3) {
                offend(&mut random, &mut bits);
            }
            met[same_judged(&pack(&bits)).0 as usize] += 1;
        }
    }
    assert!([25, 26, 27].iter().all(|&number: &usize| met[number] > 100), "{met:?}");
}

/// Single bits flipped: every one of the first two frames and of the last, and some of the others. Many are left free: Merging bits, and
/// words that differ in a bit.
#[test]
fn single_bits() {
    let mut random = Random::new(4);
    let clean = partner(&mut random, 1);
    let mut free = 0;
    for at in (0..2 * 588).chain((2 * 588..BITS).step_by(53)).chain(BITS - 588..BITS) {
        let mut channel = pack(&clean);
        channel[at / 8] ^= 0x80 >> (at % 8);
        free += (same_judged(&channel) == ACCEPTED) as usize;
    }
    assert!((1..1400).contains(&free), "{free}");
}
