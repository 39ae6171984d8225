//! ECMA-130, clauses 18 and 19; document 01, Channel bits: whole Sections, written and read.

mod annex_d;
pub mod judging;
pub mod merging;
pub mod words;

use crate::refusal::{clear, Refusal, Refusal::*};
use merging::{after, chosen};
use words::{byte_of, words, SYNC_0, SYNC_1, SYNC_HEADER};

pub const FRAMES: usize = 98;
/// A Section's F2-frames, its Control bytes, its Channel bits, its packed bytes, and its bytes as they are read.
pub const FRAME_BYTES: usize = 3136;
pub const CONTROL_BYTES: usize = 96;
pub const BITS: usize = 57_624;
pub const PACKED: usize = 7203;
pub const READ_BYTES: usize = 3234;
pub const MOST_SECTIONS: u64 = 450_000;

/// Eight bits a byte, the most significant first.
pub fn pack(bits: &[u8]) -> Vec<u8> {
    bits.chunks(8).map(|eight| eight.iter().fold(0, |byte, bit| byte << 1 | bit)).collect()
}

pub fn unpack(bytes: &[u8]) -> Vec<u8> {
    bytes.iter().flat_map(|byte| (0..8).rev().map(move |n| byte >> n & 1)).collect()
}

#[derive(Clone, Copy, Debug, PartialEq, Eq)]
pub struct SectionWriter {
    pub level: i64,
    pub dsv: i64,
    pub count: u64,
}

impl SectionWriter {
    pub fn new() -> SectionWriter {
        SectionWriter { level: -1, dsv: 0, count: 0 }
    }

    fn in_range(&self) -> bool {
        let most = BITS as u128 * self.count as u128;
        (self.level == 1 || self.level == -1)
            && self.count <= MOST_SECTIONS
            && self.dsv.unsigned_abs() as u128 <= most
    }

    fn send(&mut self, bits: &mut Vec<u8>, more: &[u8]) {
        bits.extend(more);
        (self.level, self.dsv) = after(self.level, self.dsv, more);
    }

    fn send_merging(&mut self, bits: &mut Vec<u8>, following: &[u8]) {
        let merging = chosen(bits, self.level, self.dsv, following);
        self.send(bits, &merging.expect("some Merging bits are allowed"));
    }

    /// 98 frames of 32 bytes and 96 Control bytes in, 7,203 bytes out. Refusals 1, 2, 9, 7.
    pub fn write(&mut self, frames: &[u8], control: &[u8], out: &mut [u8]) -> Result<(), Refusal> {
        clear(out, PACKED);
        if frames.len() != FRAME_BYTES || control.len() != CONTROL_BYTES {
            return Err(WrongIncoming);
        }
        if out.len() != PACKED {
            return Err(WrongOutgoing);
        }
        if !self.in_range() {
            return Err(WrongState);
        }
        if self.count == MOST_SECTIONS {
            return Err(SectionsUsedUp);
        }
        let words = words();
        let mut bits = Vec::new();
        for (n, frame) in frames.chunks(32).enumerate() {
            let control_word = match n {
                0 => SYNC_0,
                1 => SYNC_1,
                _ => words[control[n - 2] as usize],
            };
            self.send(&mut bits, &SYNC_HEADER);
            self.send_merging(&mut bits, &control_word);
            self.send(&mut bits, &control_word);
            for &byte in frame {
                let word = words[byte as usize];
                self.send_merging(&mut bits, &word);
                self.send(&mut bits, &word);
            }
            self.send_merging(&mut bits, &SYNC_HEADER);
        }
        self.count += 1;
        out.copy_from_slice(&pack(&bits));
        Ok(())
    }
}

impl Default for SectionWriter {
    fn default() -> SectionWriter {
        SectionWriter::new()
    }
}

/// Byte and mark of a word; `control` says whether it stands in a Control place.
fn read_word(word: &[u8], control: bool) -> (u8, u8) {
    if let Some(byte) = byte_of(word) {
        (byte, 0)
    } else if control && word == SYNC_0 {
        (0, 2)
    } else if control && word == SYNC_1 {
        (0, 3)
    } else {
        (0, 1)
    }
}

/// Bytes and marks of a frame, the Control byte first; without a Sync Header 33 zero bytes with mark 4 (document 02, 6).
fn read_frame(frame: &[u8]) -> [(u8, u8); 33] {
    let mut read = [(0, 4); 33];
    if let Some(rest) = frame.strip_prefix(&SYNC_HEADER) {
        for (place, read) in read.iter_mut().enumerate() {
            let word = &rest[17 * place + 3..17 * place + 17];
            *read = read_word(word, place == 0);
        }
    }
    read
}

/// 7,203 bytes in, 3,234 bytes and as many marks out. Refusals 1, 2.
pub fn read_section(channel: &[u8], bytes: &mut [u8], marks: &mut [u8]) -> Result<(), Refusal> {
    clear(bytes, READ_BYTES);
    clear(marks, READ_BYTES);
    if channel.len() != PACKED {
        return Err(WrongIncoming);
    }
    if bytes.len() != READ_BYTES || marks.len() != READ_BYTES {
        return Err(WrongOutgoing);
    }
    let bits = unpack(channel);
    let read = bits.chunks(588).flat_map(read_frame);
    for (at, (byte, mark)) in read.enumerate() {
        (bytes[at], marks[at]) = (byte, mark);
    }
    Ok(())
}

#[cfg(test)]
mod tests;
