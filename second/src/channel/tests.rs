//! Clause 19.

mod choosing;
mod judging;
mod lost;
mod reading;
mod refusals;
mod writing;

use super::*;
use crate::random::Random;

pub fn written(writer: &mut SectionWriter, frames: &[u8], control: &[u8]) -> Vec<u8> {
    let mut out = vec![0xAA; PACKED];
    assert_eq!(writer.write(frames, control, &mut out), Ok(()));
    out
}

pub fn read(channel: &[u8]) -> (Vec<u8>, Vec<u8>) {
    let (mut bytes, mut marks) = (vec![0xAA; READ_BYTES], vec![0xAA; READ_BYTES]);
    assert_eq!(read_section(channel, &mut bytes, &mut marks), Ok(()));
    (bytes, marks)
}

/// What reading must give for these frames and Control bytes.
pub fn expected(frames: &[u8], control: &[u8]) -> (Vec<u8>, Vec<u8>) {
    let (mut bytes, mut marks) = (Vec::new(), Vec::new());
    for n in 0..98 {
        bytes.push(if n < 2 { 0 } else { control[n - 2] });
        bytes.extend(&frames[32 * n..32 * n + 32]);
        marks.push([2, 3].get(n).copied().unwrap_or(0));
        marks.extend([0; 32]);
    }
    (bytes, marks)
}

/// A Section of random bytes from a fresh writer, with its frames and Control bytes.
pub fn some_section(seed: u64) -> (Vec<u8>, Vec<u8>, Vec<u8>) {
    let mut random = Random::new(seed);
    let frames = random.bytes(FRAME_BYTES);
    let control = random.bytes(CONTROL_BYTES);
    let section = written(&mut SectionWriter::new(), &frames, &control);
    (section, frames, control)
}
