//! Document 02, 9: a step of the writer and of the reader from any state of rings. They are unrolled into delay lines, a step shifts
//! these along, and they are rolled up again, each place one on.

use super::{handed_on, turned, DOUBT, F1_BYTE};
use crate::codeword::fill;
use crate::refusal::{clear, Refusal, Refusal::*};

/// How many steps each row waits in the three stages.
type Stages = [Vec<usize>; 3];

fn writer_stages() -> Stages {
    let between = (0..28).map(|row| 4 * row);
    [vec![2; 12], between.collect(), (0..32).map(|row| (row + 1) % 2).collect()]
}

/// After C2 rows 28 and 29 carry the word's doubt, now and two steps later.
fn reader_stages() -> Stages {
    let between = (0..28).map(|row| 4 * (27 - row));
    let after = (0..30).map(|row| if row == 29 || (16..28).contains(&row) { 2 } else { 0 });
    [(0..32).map(|row| row % 2).collect(), between.collect(), after.collect()]
}

/// The lengths of the rings, one for each place.
fn lengths(stages: &Stages) -> Vec<usize> {
    stages.iter().flatten().copied().filter(|&wait| wait > 0).collect()
}

pub fn writer_lengths() -> Vec<usize> {
    lengths(&writer_stages())
}

pub fn reader_lengths() -> Vec<usize> {
    lengths(&reader_stages())
}

/// The places of the rings in the order in which these stand in the reader's store: behind the bytes of the first two stages are
/// their marks, at the same places.
fn with_marks() -> Vec<usize> {
    (0..16).chain(0..16).chain(16..43).chain(16..43).chain(43..56).collect()
}

/// Rings and lines, by the ring's length and its place.
fn each_ring(
    bytes: &mut [u8],
    order: &[usize],
    lengths: &[usize],
    places: &[u8],
    turn: fn(&mut [u8], usize),
) {
    let mut at = 0;
    for &ring in order {
        turn(&mut bytes[at..at + lengths[ring]], places[ring] as usize);
        at += lengths[ring];
    }
    assert_eq!(at, bytes.len());
}

fn are_below(places: &[u8], lengths: &[usize]) -> bool {
    places.iter().zip(lengths).all(|(&place, &length)| (place as usize) < length)
}

/// The lines of the rings for the time of a step, and then the rings of the lines, each place one on.
fn as_lines(
    store: &mut [u8],
    places: &mut [u8],
    order: &[usize],
    lengths: &[usize],
    step: impl FnOnce(&mut [u8]),
) {
    each_ring(store, order, lengths, places, |ring, place| ring.rotate_left(place));
    step(store);
    for (place, &length) in places.iter_mut().zip(lengths) {
        *place = ((*place as usize + 1) % length) as u8;
    }
    each_ring(store, order, lengths, places, |line, place| line.rotate_right(place));
}

/// Each row of the word through its line: the oldest byte comes out, all others move up, and the row's byte goes in at the end.
fn shift(waits: &[usize], lines: &mut [u8], word: &mut [u8]) {
    let mut at = 0;
    for (row, &wait) in waits.iter().enumerate() {
        if wait > 0 {
            let line = &mut lines[at..at + wait];
            line.rotate_left(1);
            std::mem::swap(&mut line[wait - 1], &mut word[row]);
            at += wait;
        }
    }
    assert_eq!(at, lines.len());
}

/// 24 bytes in, 32 out. Refusals 1, 2, 6.
pub fn write(
    store: &mut [u8; 1552],
    places: &mut [u8; 55],
    frame: &[u8],
    out: &mut [u8],
) -> Result<(), Refusal> {
    clear(out, 32);
    if frame.len() != 24 {
        return Err(WrongIncoming);
    }
    if out.len() != 32 {
        return Err(WrongOutgoing);
    }
    let stages = writer_stages();
    let lengths = lengths(&stages);
    if !are_below(places, &lengths) {
        return Err(WrongPlace);
    }
    let order: Vec<usize> = (0..55).collect();
    as_lines(store, places, &order, &lengths, |lines| {
        let mut word: Vec<u8> = F1_BYTE.iter().map(|byte| byte.map_or(0, |n| frame[n])).collect();
        shift(&stages[0], &mut lines[..24], &mut word);
        fill(&mut word, 12, 4);
        shift(&stages[1], &mut lines[24..1536], &mut word);
        word.extend([0; 4]);
        fill(&mut word, 28, 4);
        shift(&stages[2], &mut lines[1536..], &mut word);
        for (row, byte) in word.iter().enumerate() {
            out[row] = turned(row, *byte);
        }
    });
    Ok(())
}

/// 32 bytes and 32 marks in, 24 out with the doubt mark. Refusals 1, 2, 6.
pub fn read(
    store: &mut [u8; 3082],
    places: &mut [u8; 56],
    frame: &[u8],
    marks: &[u8],
    out: &mut [u8],
) -> Result<bool, Refusal> {
    clear(out, 24);
    if frame.len() != 32 || marks.len() != 32 {
        return Err(WrongIncoming);
    }
    if out.len() != 24 {
        return Err(WrongOutgoing);
    }
    let stages = reader_stages();
    let lengths = lengths(&stages);
    if !are_below(places, &lengths) {
        return Err(WrongPlace);
    }
    let mut doubt = false;
    as_lines(store, places, &with_marks(), &lengths, |lines| {
        let mut word: Vec<u8> = (0..32).map(|row| turned(row, frame[row])).collect();
        let mut lost: Vec<u8> = marks.iter().map(|mark| matches!(mark, 1 | 4) as u8).collect();
        shift(&stages[0], &mut lines[..16], &mut word);
        shift(&stages[0], &mut lines[16..32], &mut lost);
        let (mut word, unfound) = handed_on(word, &lost, 2);
        word.truncate(28);
        let mut lost = vec![unfound as u8; 28];
        shift(&stages[1], &mut lines[32..1544], &mut word);
        shift(&stages[1], &mut lines[1544..3056], &mut lost);
        let (mut word, unfound) = handed_on(word, &lost, 4);
        word.extend([unfound as u8; 2]);
        shift(&stages[2], &mut lines[3056..], &mut word);
        for (row, byte) in F1_BYTE.iter().enumerate() {
            if let Some(byte) = byte {
                out[*byte] = word[row];
            }
        }
        doubt = word[DOUBT..].iter().any(|&mark| mark != 0);
    });
    Ok(doubt)
}
