//! Streams that a partner could have written, and others that keep most rules.

use super::*;
use second::channel::judging::judge_sections;
use second::channel::merging::{allowed, Merging, BEFORE_A_HEADER, BEFORE_A_WORD};
use second::channel::words::{words, Word, SYNC_0, SYNC_1, SYNC_HEADER};

/// The number and the bit position, the same on both sides.
pub fn same_judged(channel: &[u8]) -> (u8, usize) {
    let expected = proved::told_of(judge_sections(channel), |()| vec![]);
    assert_eq!(proved::judge_sections(channel), expected);
    (expected.number, expected.values[0] as usize)
}

pub const ACCEPTED: (u8, usize) = (0, 0);

/// Any allowed Merging bits and what follows them; nothing where none are allowed.
pub fn any_of(
    random: &mut Random,
    bits: &mut Vec<u8>,
    offered: &[Merging],
    following: &[u8],
) -> Option<()> {
    let fit: Vec<_> = offered.iter().filter(|&&m| allowed(bits, m, following)).collect();
    if fit.is_empty() {
        return None;
    }
    bits.extend(fit[random.below(fit.len())]);
    bits.extend(following);
    Some(())
}

/// What stands at a place of a frame, with random bytes.
pub fn word_at(random: &mut Random, words: &[Word], frame: usize, place: usize) -> Word {
    match (frame % 98, place) {
        (0, 0) => SYNC_0,
        (1, 0) => SYNC_1,
        _ => words[random.byte() as usize],
    }
}

/// The bits of Sections with any words that the given rule puts in place, and any Merging bits that are allowed; nothing where the
/// rule's own words leave none.
pub fn changed(
    random: &mut Random,
    count: usize,
    rule: impl Fn(usize, usize, Word) -> Word,
) -> Option<Vec<u8>> {
    let words = words();
    let mut bits = SYNC_HEADER.to_vec();
    for frame in 0..98 * count {
        for place in 0..33 {
            let word = word_at(random, &words, frame, place);
            any_of(random, &mut bits, &BEFORE_A_WORD, &rule(frame, place, word))?;
        }
        any_of(random, &mut bits, &BEFORE_A_HEADER, &SYNC_HEADER)?;
    }
    bits.truncate(BITS * count);
    Some(bits)
}

/// The bits of a partner's Sections.
pub fn partner(random: &mut Random, count: usize) -> Vec<u8> {
    changed(random, count, |_, _, word| word).expect("some Merging bits are allowed")
}

pub fn put(bits: &mut [u8], at: usize, more: &[u8]) {
    for (bit, &digit) in bits[at..].iter_mut().zip(more) {
        *bit = digit;
    }
}
