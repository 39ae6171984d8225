//! Clause 14 and Annex A.

mod layout;
mod repairing;
mod salvaging;
mod writing;

use super::*;
use crate::random::Random;

/// A correct Sector: written in Modes 01 and 02, of an old disc in Mode 00.
pub fn some_sector(random: &mut Random, mode: u8) -> Vec<u8> {
    let mut sector = vec![0xAA; LENGTH];
    let Some(length) = data_length(mode) else {
        return empty(random.address());
    };
    let data = random.bytes(length);
    assert_eq!(write(mode, random.address(), &data, &mut sector), Ok(()));
    sector
}

/// A Sector with `bytes` at `at` and all that follows from them worked out, as if they were right.
pub fn sealed_with(sector: &[u8], at: usize, bytes: &[u8]) -> Vec<u8> {
    let mut other = sector.to_vec();
    other[at..at + bytes.len()].copy_from_slice(bytes);
    seal(&mut other);
    other
}
