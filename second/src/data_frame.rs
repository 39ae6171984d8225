//! ISO/IEC 16449, clause 16, and document 02, 14: Data Frames read, written, and carried over into Sectors, in the plainest way.

use crate::codeword::{fill, is_codeword};
use crate::refusal::{clear, Refusal, Refusal::*};
use crate::sector;

pub const LENGTH: usize = 2064;
pub const MAIN_DATA: usize = 2048;

/// The fields of a frame. `zone` has b27 and b26, as figure 18 orders them.
#[derive(Clone, Copy, Debug, PartialEq, Eq)]
pub struct Fields {
    pub reflectivity: bool,
    pub zone: [bool; 2],
    pub layer: bool,
    pub number: [u8; 3],
    pub copyright: [u8; 6],
}

impl Fields {
    /// b29, b27, b26, b24, the bytes of the sector number, and CPR_MAI.
    pub fn numbers(self) -> [u8; 13] {
        let mut numbers = [0; 13];
        numbers[0] = self.reflectivity as u8;
        numbers[1] = self.zone[0] as u8;
        numbers[2] = self.zone[1] as u8;
        numbers[3] = self.layer as u8;
        numbers[4..7].copy_from_slice(&self.number);
        numbers[7..].copy_from_slice(&self.copyright);
        numbers
    }
}

/// 16.4: what division by x^32+x^31+x^4+1 leaves of the bit field, the most significant bit of each byte first.
pub fn remainder(bytes: &[u8]) -> u32 {
    let mut left = 0u64;
    for n in 0..8 * bytes.len() {
        left = left << 1 | (bytes[n / 8] >> (7 - n % 8) & 1) as u64;
        if left >> 32 == 1 {
            left ^= 1 << 32 | 1 << 31 | 1 << 4 | 1;
        }
    }
    left as u32
}

/// Writing: 1, 2.
pub fn write(fields: Fields, main: &[u8], out: &mut [u8]) -> Result<(), Refusal> {
    if main.len() != MAIN_DATA {
        clear(out, LENGTH);
        return Err(WrongIncoming);
    }
    if out.len() != LENGTH {
        return Err(WrongOutgoing);
    }
    out[0] = (fields.reflectivity as u8) << 5
        | (fields.zone[0] as u8) << 3
        | (fields.zone[1] as u8) << 2
        | fields.layer as u8;
    out[1..4].copy_from_slice(&fields.number);
    fill(&mut out[..6], 4, 2);
    out[6..12].copy_from_slice(&fields.copyright);
    out[12..2060].copy_from_slice(main);
    out[2060..].fill(0);
    let edc = remainder(out);
    out[2060..].copy_from_slice(&edc.to_be_bytes());
    Ok(())
}

fn fault(frame: &[u8]) -> Option<Refusal> {
    if !is_codeword(&frame[..6], 2) {
        return Some(WrongIdentification);
    }
    if remainder(frame) != 0 {
        return Some(WrongFrameEdc);
    }
    // b31, b30, b28 and b25
    [7, 6, 4, 1].iter().any(|bit| frame[0] >> bit & 1 == 1).then_some(ReservedBit)
}

/// Reading: 1, 2, 28, 29, 30.
pub fn read(frame: &[u8], main: &mut [u8]) -> Result<Fields, Refusal> {
    if frame.len() != LENGTH {
        clear(main, MAIN_DATA);
        return Err(WrongIncoming);
    }
    if main.len() != MAIN_DATA {
        return Err(WrongOutgoing);
    }
    if let Some(refusal) = fault(frame) {
        main.fill(0);
        return Err(refusal);
    }
    main.copy_from_slice(&frame[12..2060]);
    let bit = |n: u8| frame[0] >> (n - 24) & 1 == 1;
    Ok(Fields {
        reflectivity: bit(29),
        zone: [bit(27), bit(26)],
        layer: bit(24),
        number: frame[1..4].try_into().unwrap(),
        copyright: frame[6..12].try_into().unwrap(),
    })
}

/// Every address of an area in order: minutes up to 99, or with (A0) added up to 59.
fn area(lead_in: bool) -> impl Iterator<Item = [u8; 3]> {
    let digits = |n: u32| (n / 10 * 16 + n % 10) as u8;
    let (minutes, added) = if lead_in { (60, 0xA0) } else { (100, 0) };
    (0..minutes * 60 * 75)
        .map(move |n| [digits(n / 4500) + added, digits(n / 75 % 60), digits(n % 75)])
}

/// Carrying over: 1, 2, then the first faulty frame, 4, 31.
pub fn carry(frames: &[u8], start: [u8; 3], out: &mut [u8]) -> Result<(), Refusal> {
    let count = frames.len() / LENGTH;
    if frames.len() % LENGTH != 0 || !(1..=16).contains(&count) {
        return Err(WrongIncoming);
    }
    if out.len() != sector::LENGTH * count {
        return Err(WrongOutgoing);
    }
    out.fill(0);
    if let Some(refusal) = frames.chunks(LENGTH).find_map(fault) {
        return Err(refusal);
    }
    if !sector::address_in_range(start) {
        return Err(WrongAddress);
    }
    let addresses: Vec<[u8; 3]> =
        area(start[0] >= 0xA0).skip_while(|&at| at != start).take(count).collect();
    if addresses.len() < count {
        return Err(PastTheEnd);
    }
    for (n, (frame, part)) in frames.chunks(LENGTH).zip(out.chunks_mut(sector::LENGTH)).enumerate()
    {
        sector::write(1, addresses[n], &frame[12..2060], part).expect("all is right by now");
    }
    Ok(())
}
