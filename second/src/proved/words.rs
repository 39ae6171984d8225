//! The field, codewords and the EDC.

use super::{told, Told};

extern "C" {
    fn road_times_alpha(x: u8) -> u8;
    fn road_product(a: u8, b: u8) -> u8;
    fn road_inverse(a: u8) -> u8;
    fn road_verdict_of_two(word: *const u8, length: usize, change: *mut [u64; 2]) -> u8;
    fn road_verdict_of_four(word: *const u8, length: usize, change: *mut [u64; 2]) -> u8;
    fn road_parity_of_two(word: *const u8, length: usize, parity: *mut [u8; 2]);
    fn road_parity_at_end(word: *const u8, length: usize, parity: *mut [u8; 4]);
    fn road_parity_at_12(word: *const [u8; 28], parity: *mut [u8; 4]);
    fn road_fill(marks: *const u8, marks_length: usize, word: *mut u8, length: usize) -> bool;
    fn road_edc_remainder(bytes: *const u8, length: usize) -> u32;
    fn road_edc_parity(bytes: *const u8, length: usize, field: *mut [u8; 4]);
    fn road_edc_holds(bytes: *const u8, length: usize) -> bool;
}

pub fn times_alpha(x: u8) -> u8 {
    unsafe { road_times_alpha(x) }
}

pub fn product(a: u8, b: u8) -> u8 {
    unsafe { road_product(a, b) }
}

pub fn inverse(a: u8) -> u8 {
    unsafe { road_inverse(a) }
}

pub fn verdict_of_two(word: &[u8]) -> Told<2> {
    told(|change| unsafe { road_verdict_of_two(word.as_ptr(), word.len(), change) })
}

pub fn verdict_of_four(word: &[u8]) -> Told<2> {
    told(|change| unsafe { road_verdict_of_four(word.as_ptr(), word.len(), change) })
}

pub fn parity_of_two(word: &[u8]) -> [u8; 2] {
    let mut parity = [0; 2];
    unsafe { road_parity_of_two(word.as_ptr(), word.len(), &mut parity) }
    parity
}

pub fn parity_at_end(word: &[u8]) -> [u8; 4] {
    let mut parity = [0; 4];
    unsafe { road_parity_at_end(word.as_ptr(), word.len(), &mut parity) }
    parity
}

pub fn parity_at_12(word: &[u8; 28]) -> [u8; 4] {
    let mut parity = [0; 4];
    unsafe { road_parity_at_12(word, &mut parity) }
    parity
}

/// The marked bytes of a word are filled, where a codeword of four sums agrees with the others.
pub fn fill(marks: &[u8], word: &mut [u8]) -> bool {
    unsafe { road_fill(marks.as_ptr(), marks.len(), word.as_mut_ptr(), word.len()) }
}

pub fn edc_remainder(bytes: &[u8]) -> u32 {
    unsafe { road_edc_remainder(bytes.as_ptr(), bytes.len()) }
}

pub fn edc_parity(bytes: &[u8]) -> [u8; 4] {
    let mut field = [0; 4];
    unsafe { road_edc_parity(bytes.as_ptr(), bytes.len(), &mut field) }
    field
}

pub fn edc_holds(bytes: &[u8]) -> bool {
    unsafe { road_edc_holds(bytes.as_ptr(), bytes.len()) }
}
