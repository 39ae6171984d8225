//! Clause 17 and Annex C.

mod marked;
mod reading;
mod writing;

use super::*;
use crate::random::Random;

pub fn written(frames: &[Vec<u8>]) -> Vec<Vec<u8>> {
    let mut writer = CircWriter::new();
    let mut all = Vec::new();
    for frame in frames {
        let mut out = vec![0xAA; 32];
        assert_eq!(writer.step(frame, &mut out), Ok(()));
        all.push(out);
    }
    all
}

pub fn read(frames: &[Vec<u8>]) -> Vec<(Vec<u8>, bool)> {
    read_marked(frames, &vec![vec![0; 32]; frames.len()])
}

pub fn read_marked(frames: &[Vec<u8>], marks: &[Vec<u8>]) -> Vec<(Vec<u8>, bool)> {
    let mut reader = CircReader::new();
    let mut all = Vec::new();
    for (frame, marks) in frames.iter().zip(marks) {
        let mut out = vec![0xAA; 24];
        let doubt = reader.step(frame, marks, &mut out).unwrap();
        all.push((out, doubt));
    }
    all
}

pub fn some_frames(random: &mut Random, count: usize) -> Vec<Vec<u8>> {
    (0..count).map(|_| random.bytes(24)).collect()
}

/// What reading the frames must give if nothing is lost: zeros for 111 steps, then the frames, without doubt.
pub fn expected(frames: &[Vec<u8>]) -> Vec<(Vec<u8>, bool)> {
    let late = vec![vec![0; 24]; 111];
    let all = late.iter().chain(frames).take(frames.len());
    all.map(|frame| (frame.clone(), false)).collect()
}

/// What the F2-frames of endless zero F1-frames look like.
pub fn zero_f2() -> Vec<u8> {
    (0..32).map(|row| if is_parity(row) { 0xFF } else { 0x00 }).collect()
}
