//! Document 02, 12: judging Sections that somebody else wrote, as if one more Sync Header followed the last.

use super::merging::headers;
use super::words::{byte_of, SYNC_0, SYNC_1, SYNC_HEADER};
use super::{unpack, FRAMES, PACKED};
use crate::refusal::{Refusal, Refusal::*};

/// A ONE that comes too early, or the eleventh ZERO after a ONE.
fn runs(stream: &[u8]) -> Vec<Refusal> {
    let mut offences = Vec::new();
    let mut last: Option<usize> = None;
    for (bit, &digit) in stream.iter().enumerate() {
        let distance = last.map(|one| bit - one);
        let early = digit == 1 && distance.is_some_and(|distance| distance < 3);
        let eleventh = digit == 0 && distance == Some(11);
        if early || eleventh {
            offences.push(WrongRun { bit });
        }
        if digit == 1 {
            last = Some(bit);
        }
    }
    offences
}

/// A Sync Header that is missing where one has its place, or extra.
fn misplaced_headers(stream: &[u8]) -> Vec<Refusal> {
    let found = headers(stream);
    let missing = (0..stream.len()).step_by(588).filter(|place| !found.contains(place));
    let extra = found.iter().copied().filter(|place| place % 588 != 0);
    missing.chain(extra).map(|bit| WrongHeader { bit }).collect()
}

/// A word that is not listed, or no SYNC in one of a Section's first two Control places.
fn wrong_words(stream: &[u8]) -> Vec<Refusal> {
    let mut offences = Vec::new();
    for frame in 0..stream.len() / 588 {
        for place in 0..33 {
            let bit = 588 * frame + 27 + 17 * place;
            let found = &stream[bit..bit + 14];
            let right = match (frame % FRAMES, place) {
                (0, 0) => found == SYNC_0,
                (1, 0) => found == SYNC_1,
                _ => byte_of(found).is_some(),
            };
            if !right {
                offences.push(WrongWord { bit });
            }
        }
    }
    offences
}

/// One to nine Sections. Refusals 1, and of 25, 26 and 27 that of the earliest bit, at one bit the lowest number.
pub fn judge_sections(channel: &[u8]) -> Result<(), Refusal> {
    if channel.len() % PACKED != 0 || !(1..=9).contains(&(channel.len() / PACKED)) {
        return Err(WrongIncoming);
    }
    let stream = [unpack(channel), SYNC_HEADER.to_vec()].concat();
    let offences = [runs(&stream), misplaced_headers(&stream), wrong_words(&stream)].concat();
    match offences.into_iter().min_by_key(|offence| (offence.value(), offence.number())) {
        Some(first) => Err(first),
        None => Ok(()),
    }
}
