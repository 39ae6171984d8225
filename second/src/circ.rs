//! ECMA-130, clause 17 and Annex C; document 01, CIRC; document 02, 7: the writer and the reader, over whole histories.

pub mod rings;

use crate::codeword::{agreeing, fill, nearest};
use crate::refusal::{clear, Refusal, Refusal::*};

/// The byte of the F1-frame in each of the 28 rows before C1; rows 12 to 15 have none.
pub const F1_BYTE: [Option<usize>; 28] = {
    let first = [0, 1, 8, 9, 16, 17, 2, 3, 10, 11, 18, 19];
    let second = [4, 5, 12, 13, 20, 21, 6, 7, 14, 15, 22, 23];
    let mut rows = [None; 28];
    let mut n = 0;
    while n < 12 {
        rows[n] = Some(first[n]);
        rows[16 + n] = Some(second[n]);
        n += 1;
    }
    rows
};

/// The eight parity rows, which are inverted outside.
fn is_parity(row: usize) -> bool {
    (12..16).contains(&row) || (28..32).contains(&row)
}

fn turned(row: usize, byte: u8) -> u8 {
    if is_parity(row) {
        !byte
    } else {
        byte
    }
}

/// All words at one point of the chain so far, the newest last.
#[derive(Clone, Debug, Default, PartialEq, Eq)]
struct History(Vec<Vec<u8>>);

impl History {
    fn push(&mut self, word: Vec<u8>) {
        self.0.push(word);
    }

    /// A byte of the newest word, or of that so many steps earlier; 0 before the start.
    fn byte(&self, steps: usize, row: usize) -> u8 {
        let word = self.0.iter().rev().nth(steps);
        word.map_or(0, |word| word[row])
    }
}

#[derive(Clone, Debug, Default, PartialEq, Eq)]
pub struct CircWriter {
    f1: History,
    c2: History,
    c1: History,
}

impl CircWriter {
    /// As if endless zero F1-frames had gone before: their codewords are zeros.
    pub fn new() -> CircWriter {
        CircWriter::default()
    }

    /// 24 bytes in, 32 out. Refusals 1, 2.
    pub fn step(&mut self, frame: &[u8], out: &mut [u8]) -> Result<(), Refusal> {
        clear(out, 32);
        if frame.len() != 24 {
            return Err(WrongIncoming);
        }
        if out.len() != 32 {
            return Err(WrongOutgoing);
        }
        self.f1.push(frame.to_vec());
        let mut c2 = vec![0; 28];
        for (row, byte) in F1_BYTE.iter().enumerate() {
            if let Some(byte) = byte {
                c2[row] = self.f1.byte(if row < 12 { 2 } else { 0 }, *byte);
            }
        }
        fill(&mut c2, 12, 4);
        self.c2.push(c2);
        let mut c1: Vec<u8> = (0..28).map(|row| self.c2.byte(4 * row, row)).collect();
        c1.extend([0; 4]);
        fill(&mut c1, 28, 4);
        self.c1.push(c1);
        for (row, out) in out.iter_mut().enumerate() {
            let byte = self.c1.byte(if row % 2 == 0 { 1 } else { 0 }, row);
            *out = turned(row, byte);
        }
        Ok(())
    }
}

/// What a code hands on of a word, and whether that is the word as it came because no codeword was found. Without marks the
/// codeword near the word is sought, with 1 to `most` marks the one that agrees with it on all unmarked bytes.
fn handed_on(word: Vec<u8>, lost: &[u8], most: usize) -> (Vec<u8>, bool) {
    let marked: Vec<usize> = (0..word.len()).filter(|&row| lost[row] != 0).collect();
    let found = match marked.len() {
        0 => nearest(&word, 4),
        count if count <= most => agreeing(&word, &marked, 4),
        _ => None,
    };
    let unfound = found.is_none();
    (found.unwrap_or(word), unfound)
}

/// Each history of bytes has one of their marks beside it: 1 for a lost byte, else 0.
#[derive(Clone, Debug, Default, PartialEq, Eq)]
pub struct CircReader {
    f2: History,
    f2_lost: History,
    after_c1: History,
    after_c1_lost: History,
    after_c2: History,
}

/// Where the doubt of a word after C2 is kept: as one more row, 1 for doubt.
const DOUBT: usize = 28;

impl CircReader {
    /// As if the F2-frames of endless zero F1-frames had gone before: with parity turned back they are zeros.
    pub fn new() -> CircReader {
        CircReader::default()
    }

    /// 32 bytes and 32 marks in, of which 1 and 4 say that a byte is lost; 24 bytes out, and the doubt mark. Refusals 1, 2.
    pub fn step(&mut self, frame: &[u8], marks: &[u8], out: &mut [u8]) -> Result<bool, Refusal> {
        clear(out, 24);
        if frame.len() != 32 || marks.len() != 32 {
            return Err(WrongIncoming);
        }
        if out.len() != 24 {
            return Err(WrongOutgoing);
        }
        self.f2.push((0..32).map(|row| turned(row, frame[row])).collect());
        self.f2_lost.push(marks.iter().map(|mark| matches!(mark, 1 | 4) as u8).collect());
        let wait = |row: usize| row % 2;
        let c1 = (0..32).map(|row| self.f2.byte(wait(row), row)).collect();
        let c1_lost: Vec<u8> = (0..32).map(|row| self.f2_lost.byte(wait(row), row)).collect();
        let (word, lost) = handed_on(c1, &c1_lost, 2);
        self.after_c1.push(word);
        self.after_c1_lost.push(vec![lost as u8; 28]);
        let wait = |row: usize| 4 * (27 - row);
        let c2 = (0..28).map(|row| self.after_c1.byte(wait(row), row)).collect();
        let c2_lost: Vec<u8> = (0..28).map(|row| self.after_c1_lost.byte(wait(row), row)).collect();
        let (mut word, lost) = handed_on(c2, &c2_lost, 4);
        word.push(lost as u8);
        self.after_c2.push(word);
        for (row, byte) in F1_BYTE.iter().enumerate() {
            if let Some(byte) = byte {
                out[*byte] = self.after_c2.byte(if row < 12 { 0 } else { 2 }, row);
            }
        }
        Ok(self.after_c2.byte(0, DOUBT) == 1 || self.after_c2.byte(2, DOUBT) == 1)
    }
}

#[cfg(test)]
mod tests;
