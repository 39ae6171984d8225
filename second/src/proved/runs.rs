//! Runs of CIRC steps, and Sections.

use super::{told, Told};
use crate::channel::SectionWriter;

extern "C" {
    fn road_circ_write(
        frames: *const u8,
        length: usize,
        steps: *mut u8,
        steps_length: usize,
        out: *mut u8,
        out_length: usize,
    );
    fn road_circ_read(
        frames: *const u8,
        length: usize,
        steps: *mut u8,
        steps_length: usize,
        out: *mut u8,
        out_length: usize,
    );
    fn road_circ_write_step(
        store: *mut [u8; 1552],
        places: *mut [u8; 55],
        frame: *const u8,
        length: usize,
        out: *mut u8,
        out_length: usize,
    ) -> u8;
    fn road_circ_read_step(
        store: *mut [u8; 3082],
        places: *mut [u8; 56],
        frame: *const u8,
        length: usize,
        marks: *const u8,
        marks_length: usize,
        out: *mut u8,
        out_length: usize,
        doubt: *mut [u64; 1],
    ) -> u8;
    fn road_new_section_writer(dsv: *mut i64, level: *mut i64, sections: *mut u64);
    fn road_write_section(
        dsv: *mut i64,
        level: *mut i64,
        sections: *mut u64,
        frames: *const u8,
        length: usize,
        control: *const u8,
        control_length: usize,
        out: *mut u8,
        out_length: usize,
    ) -> u8;
    fn road_read_section(
        channel: *const u8,
        length: usize,
        bytes: *mut u8,
        bytes_length: usize,
        marks: *mut u8,
        marks_length: usize,
    ) -> u8;
    fn road_judge_sections(channel: *const u8, length: usize, bit: *mut [u64; 1]) -> u8;
}

/// A run of steps from a fresh writer. Two bytes for each step say how much of the frames and of the buffer it is lent, and
/// become number and value of its answer.
pub fn circ_write(frames: &[u8], steps: &mut [u8], out: &mut [u8]) {
    let (bytes, length) = (frames.as_ptr(), frames.len());
    let (out, out_length) = (out.as_mut_ptr(), out.len());
    unsafe { road_circ_write(bytes, length, steps.as_mut_ptr(), steps.len(), out, out_length) }
}

/// The same from a fresh reader. What a step is lent is a frame, of 32 bytes or less, and its marks behind it.
pub fn circ_read(frames: &[u8], steps: &mut [u8], out: &mut [u8]) {
    let (bytes, length) = (frames.as_ptr(), frames.len());
    let (out, out_length) = (out.as_mut_ptr(), out.len());
    unsafe { road_circ_read(bytes, length, steps.as_mut_ptr(), steps.len(), out, out_length) }
}

/// A step of the writer from any state, which becomes the next.
pub fn circ_write_step(
    store: &mut [u8; 1552],
    places: &mut [u8; 55],
    frame: &[u8],
    out: &mut [u8],
) -> u8 {
    let (bytes, length) = (frame.as_ptr(), frame.len());
    let (out, out_length) = (out.as_mut_ptr(), out.len());
    unsafe { road_circ_write_step(store, places, bytes, length, out, out_length) }
}

/// The same of the reader. With a frame comes its doubt mark.
pub fn circ_read_step(
    store: &mut [u8; 3082],
    places: &mut [u8; 56],
    frame: &[u8],
    marks: &[u8],
    out: &mut [u8],
) -> Told<1> {
    let (bytes, length) = (frame.as_ptr(), frame.len());
    let (marks, marks_length) = (marks.as_ptr(), marks.len());
    let (out, out_length) = (out.as_mut_ptr(), out.len());
    told(|doubt| unsafe {
        road_circ_read_step(
            store,
            places,
            bytes,
            length,
            marks,
            marks_length,
            out,
            out_length,
            doubt,
        )
    })
}

/// The state in which nothing is written yet.
pub fn new_section_writer() -> SectionWriter {
    let mut state = SectionWriter { level: 0, dsv: i64::MAX, count: u64::MAX };
    let SectionWriter { level, dsv, count } = &mut state;
    unsafe { road_new_section_writer(dsv, level, count) }
    state
}

/// One Section from any state, which becomes the next.
pub fn write_section(
    state: &mut SectionWriter,
    frames: &[u8],
    control: &[u8],
    out: &mut [u8],
) -> u8 {
    let SectionWriter { level, dsv, count } = state;
    let (bytes, length) = (frames.as_ptr(), frames.len());
    let (control, control_length) = (control.as_ptr(), control.len());
    let (out, out_length) = (out.as_mut_ptr(), out.len());
    unsafe {
        road_write_section(
            dsv,
            level,
            count,
            bytes,
            length,
            control,
            control_length,
            out,
            out_length,
        )
    }
}

pub fn read_section(channel: &[u8], bytes: &mut [u8], marks: &mut [u8]) -> u8 {
    let (bytes, bytes_length) = (bytes.as_mut_ptr(), bytes.len());
    let (marks, marks_length) = (marks.as_mut_ptr(), marks.len());
    let (channel, length) = (channel.as_ptr(), channel.len());
    unsafe { road_read_section(channel, length, bytes, bytes_length, marks, marks_length) }
}

/// With an offence comes its bit position.
pub fn judge_sections(channel: &[u8]) -> Told<1> {
    told(|bit| unsafe { road_judge_sections(channel.as_ptr(), channel.len(), bit) })
}
