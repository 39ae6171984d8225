//! ECMA-130, clause 14 and Annex A; document 01, A Sector, P and Q; document 02, 10 and 13: layout, writing, judging and what is tried of some bytes.

mod repair;
mod salvage;

use crate::codeword::{fill, is_codeword};
use crate::edc;
use crate::refusal::{clear, Refusal, Refusal::*};
pub use repair::{repair, repair_many};
pub use salvage::{salvage, Salvaged, LIST};

pub const LENGTH: usize = 2352;
pub const SYNC: [u8; 12] = [0, 255, 255, 255, 255, 255, 255, 255, 255, 255, 255, 0];
pub const P_CODEWORDS: usize = 86;
pub const Q_CODEWORDS: usize = 52;
/// How many Sectors one call of repair takes at most.
pub const BATCH: usize = 16;

/// Bytes of user data, where the mode is one of the two that are written.
pub fn data_length(mode: u8) -> Option<usize> {
    match mode {
        1 => Some(2048),
        2 => Some(2336),
        _ => None,
    }
}

/// Minute, second and frame, two decimal digits each: below 100, 60 and 75. In the Lead-in Area (A0) is added to a minute below 60.
pub fn address_in_range(address: [u8; 3]) -> bool {
    let below = |byte: u8, bound: u8| {
        let (tens, ones) = (byte / 16, byte % 16);
        tens <= 9 && ones <= 9 && 10 * tens + ones < bound
    };
    let lead_in = |byte: u8| byte.checked_sub(0xA0).is_some_and(|minute| below(minute, 60));
    (below(address[0], 100) || lead_in(address[0]))
        && below(address[1], 60)
        && below(address[2], 75)
}

/// Where the byte of a word stands in the Sector: `half` 0 is its LSB, 1 its MSB.
pub fn position(word: usize, half: usize) -> usize {
    2 * word + 12 + half
}

/// The bytes of P codeword `n`, 0 to 85: the 43 of the LSBs, then those of the MSBs.
pub fn p_positions(n: usize) -> Vec<usize> {
    let (half, c) = (n / 43, n % 43);
    (0..26).map(|r| position(43 * r + c, half)).collect()
}

/// The bytes of Q codeword `n`, 0 to 51: the 26 of the LSBs, then those of the MSBs.
pub fn q_positions(n: usize) -> Vec<usize> {
    let (half, d) = (n / 26, n % 26);
    let mut words: Vec<usize> = (0..43).map(|m| (44 * m + 43 * d) % 1118).collect();
    words.extend([1118 + d, 1144 + d]);
    words.iter().map(|&word| position(word, half)).collect()
}

fn take(sector: &[u8], positions: &[usize]) -> Vec<u8> {
    positions.iter().map(|&at| sector[at]).collect()
}

fn put(sector: &mut [u8], positions: &[usize], word: &[u8]) {
    for (&at, &byte) in positions.iter().zip(word) {
        sector[at] = byte;
    }
}

/// Works out the last two bytes of the codeword at these positions.
fn set_parity(sector: &mut [u8], positions: &[usize]) {
    let mut word = take(sector, positions);
    let data = word.len() - 2;
    fill(&mut word, data, 2);
    put(sector, positions, &word);
}

/// EDC, Intermediate field, P and Q parity of a Mode 01 Sector, from the bytes before them.
fn seal(sector: &mut [u8]) {
    let four = edc::four_bytes(&sector[..2064]);
    sector[2064..2068].copy_from_slice(&four);
    sector[2068..2076].fill(0);
    (0..P_CODEWORDS).for_each(|n| set_parity(sector, &p_positions(n)));
    (0..Q_CODEWORDS).for_each(|n| set_parity(sector, &q_positions(n)));
}

/// The bytes with sync set and Q parity worked out afresh, where that is a correct Sector of Mode 01.
fn tried(bytes: &[u8]) -> Option<Vec<u8>> {
    let mut sector = bytes.to_vec();
    sector[..12].copy_from_slice(&SYNC);
    (0..Q_CODEWORDS).for_each(|n| set_parity(&mut sector, &q_positions(n)));
    let correct = matches!(judge(&sector), Ok(Passed { mode: 1, .. }));
    correct.then_some(sector)
}

/// Refusals 2, 3, 1, 4.
pub fn write(mode: u8, address: [u8; 3], data: &[u8], out: &mut [u8]) -> Result<(), Refusal> {
    clear(out, LENGTH);
    if out.len() != LENGTH {
        return Err(WrongOutgoing);
    }
    let Some(length) = data_length(mode) else {
        return Err(WrongMode);
    };
    if data.len() != length {
        return Err(WrongIncoming);
    }
    if !address_in_range(address) {
        return Err(WrongAddress);
    }
    out[..12].copy_from_slice(&SYNC);
    out[12..15].copy_from_slice(&address);
    out[15] = mode;
    out[16..16 + length].copy_from_slice(data);
    if mode == 1 {
        seal(out);
    }
    Ok(())
}

/// A Sector of Mode 00, as old discs have them.
pub fn empty(address: [u8; 3]) -> Vec<u8> {
    let mut sector = vec![0; LENGTH];
    sector[..12].copy_from_slice(&SYNC);
    sector[12..15].copy_from_slice(&address);
    sector
}

/// What a Sector that passes is answered with.
#[derive(Clone, Copy, Debug, PartialEq, Eq)]
pub struct Passed {
    pub mode: u8,
    pub address: [u8; 3],
}

/// Refusals 1, 10, 3, 4, then for Mode 01 11, 12, 13, 14 and for Mode 00 15.
pub fn judge(sector: &[u8]) -> Result<Passed, Refusal> {
    if sector.len() != LENGTH {
        return Err(WrongIncoming);
    }
    if sector[..12] != SYNC {
        return Err(WrongSync);
    }
    let mode = sector[15];
    if mode > 2 {
        return Err(WrongMode);
    }
    let address = [sector[12], sector[13], sector[14]];
    if !address_in_range(address) {
        return Err(WrongAddress);
    }
    if mode == 1 {
        if edc::remainder(&sector[..2068]) != 0 {
            return Err(WrongEdc);
        }
        if sector[2068..2076] != [0; 8] {
            return Err(WrongIntermediate);
        }
        let fails = |positions: Vec<usize>| !is_codeword(&take(sector, &positions), 2);
        if let Some(codeword) = (0..P_CODEWORDS).find(|&n| fails(p_positions(n))) {
            return Err(WrongP { codeword });
        }
        if let Some(codeword) = (0..Q_CODEWORDS).find(|&n| fails(q_positions(n))) {
            return Err(WrongQ { codeword });
        }
    }
    if mode == 0 && sector[16..].iter().any(|&byte| byte != 0) {
        return Err(WrongFiller);
    }
    Ok(Passed { mode, address })
}

#[cfg(test)]
mod tests;
