//! Data Frames.

use super::{told, Told};

extern "C" {
    fn road_read_frame(
        frame: *const u8,
        length: usize,
        main: *mut u8,
        main_length: usize,
        values: *mut [u64; 13],
    ) -> u8;
    fn road_write_frame(
        fields: *const [u8; 13],
        main: *const u8,
        length: usize,
        out: *mut u8,
        out_length: usize,
    ) -> u8;
    fn road_carry(
        frames: *const u8,
        length: usize,
        minute: u8,
        second: u8,
        frame: u8,
        out: *mut u8,
        out_length: usize,
    ) -> u8;
}

/// With a frame that is read come the numbers of its fields.
pub fn read_frame(frame: &[u8], main: &mut [u8]) -> Told<13> {
    let (frame, length) = (frame.as_ptr(), frame.len());
    let (main, main_length) = (main.as_mut_ptr(), main.len());
    told(|values| unsafe { road_read_frame(frame, length, main, main_length, values) })
}

/// Of the first four numbers 1 is a ONE.
pub fn write_frame(fields: [u8; 13], main: &[u8], out: &mut [u8]) -> u8 {
    unsafe { road_write_frame(&fields, main.as_ptr(), main.len(), out.as_mut_ptr(), out.len()) }
}

pub fn carry(frames: &[u8], start: [u8; 3], out: &mut [u8]) -> u8 {
    let [minute, second, frame] = start;
    let (frames, length) = (frames.as_ptr(), frames.len());
    unsafe { road_carry(frames, length, minute, second, frame, out.as_mut_ptr(), out.len()) }
}
