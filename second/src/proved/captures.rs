//! Edge captures.

use super::{told, Told};

extern "C" {
    fn road_runs_of(
        capture: *const u8,
        length: usize,
        list: *mut u8,
        list_length: usize,
        used: *mut [u64; 1],
    ) -> u8;
    fn road_capture_of(
        list: *const u8,
        length: usize,
        capture: *mut u8,
        capture_length: usize,
        used: *mut [u64; 1],
    ) -> u8;
    fn road_replay(
        capture: *const u8,
        length: usize,
        frames: *mut u8,
        frames_length: usize,
        values: *mut [u64; 2],
    ) -> u8;
}

/// With a list comes its used length.
pub fn runs_of(capture: &[u8], list: &mut [u8]) -> Told<1> {
    let (bytes, length) = (capture.as_ptr(), capture.len());
    let (list, list_length) = (list.as_mut_ptr(), list.len());
    told(|used| unsafe { road_runs_of(bytes, length, list, list_length, used) })
}

/// With a capture comes its used length.
pub fn capture_of(list: &[u8], capture: &mut [u8]) -> Told<1> {
    let (bytes, length) = (list.as_ptr(), list.len());
    let (capture, capture_length) = (capture.as_mut_ptr(), capture.len());
    told(|used| unsafe { road_capture_of(bytes, length, capture, capture_length, used) })
}

/// With frames come the used length and their number, with an illegal run its index.
pub fn replay(capture: &[u8], frames: &mut [u8]) -> Told<2> {
    let (bytes, length) = (capture.as_ptr(), capture.len());
    let (frames, frames_length) = (frames.as_mut_ptr(), frames.len());
    told(|values| unsafe { road_replay(bytes, length, frames, frames_length, values) })
}
