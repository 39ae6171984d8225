//! ECMA-130, clause 22: the Control bytes of a Section. Document 02, 3.

mod fields;
#[cfg(test)]
mod tests;

pub use fields::*;

use crate::channel::{unpack, CONTROL_BYTES};
use crate::refusal::{clear, Refusal, Refusal::*};

/// x^16+x^12+x^5+1 without its highest power.
const POLYNOMIAL: u16 = 1 << 12 | 1 << 5 | 1;

/// What division leaves of the bits, the first the highest power, and of sixteen 0 behind them; inverted (22.3.6).
pub fn crc(bits: &[u8]) -> u16 {
    let mut left = 0u16;
    for bit in bits.iter().chain(&[0; 16]) {
        let highest = left >> 15;
        left = left << 1 | *bit as u16;
        if highest == 1 {
            left ^= POLYNOMIAL;
        }
    }
    !left
}

/// The q-channel: 80 bits of fields and 16 of CRC.
pub fn q_channel(fields: &Fields) -> Vec<u8> {
    let mut bits = unpack(&fields.ten_bytes());
    bits.extend(unpack(&crc(&bits).to_be_bytes()));
    bits
}

/// 96 bytes. Refusals 2, 18.
pub fn write(fields: &Fields, out: &mut [u8]) -> Result<(), Refusal> {
    clear(out, CONTROL_BYTES);
    if out.len() != CONTROL_BYTES {
        return Err(WrongOutgoing);
    }
    if !fields.allowed() {
        return Err(WrongField);
    }
    for (byte, bit) in out.iter_mut().zip(q_channel(fields)) {
        *byte = (fields.flag as u8) << 7 | bit << 6;
    }
    Ok(())
}

fn number(bits: &[u8]) -> u64 {
    bits.iter().fold(0, |n, bit| n << 1 | *bit as u64)
}

/// Refusals 1, 16, 17, 18. Field by field, in the order of clause 22.
pub fn read(bytes: &[u8]) -> Result<Fields, Refusal> {
    if bytes.len() != CONTROL_BYTES {
        return Err(WrongIncoming);
    }
    let bits: Vec<u8> = bytes.iter().map(|byte| byte >> 6 & 1).collect();
    let (fields, parity) = bits.split_at(80);
    if crc(fields) as u64 != number(parity) {
        return Err(WrongCrc);
    }
    let mode = number(&fields[4..8]);
    if mode != 1 && mode != 2 {
        return Err(WrongQMode);
    }
    let flag = bytes[0] >> 7 == 1;
    if bytes.iter().any(|byte| byte & 0x3F != 0 || (byte >> 7 == 1) != flag) {
        return Err(WrongField);
    }
    let copying = match number(&fields[..4]) {
        0b0100 => false,
        0b0110 => true,
        _ => return Err(WrongField),
    };
    let data: Vec<u8> = fields[8..].chunks(8).map(|eight| number(eight) as u8).collect();
    let q_data = if mode == 1 { mode_1(&data)? } else { mode_2(&fields[8..])? };
    let fields = Fields { flag, copying, q_data };
    if fields.allowed() {
        Ok(fields)
    } else {
        Err(WrongField)
    }
}

fn mode_1(data: &[u8]) -> Result<QData, Refusal> {
    let [tno, second, min, sec, frac, zero, x, y, z] = data.try_into().expect("nine bytes");
    let (relative, other) = (ControlTime(min, sec, frac), ControlTime(x, y, z));
    if zero != 0 {
        return Err(WrongField);
    }
    match (tno, second) {
        (0x00, 0xA0 | 0xA1) if y != 0 || z != 0 => Err(WrongField),
        (0x00, 0xA0) => Ok(QData::LeadIn(Item::FirstTrack(x), relative)),
        (0x00, 0xA1) => Ok(QData::LeadIn(Item::LastTrack(x), relative)),
        (0x00, 0xA2) => Ok(QData::LeadIn(Item::LeadOut(other), relative)),
        (0x00, n) => Ok(QData::LeadIn(Item::Track(n, other), relative)),
        (0xAA, 0x01) => Ok(QData::LeadOut(relative, other)),
        (0xAA, _) => Err(WrongField),
        (tno, index) => Ok(QData::UserData(tno, index, relative, other)),
    }
}

fn mode_2(data: &[u8]) -> Result<QData, Refusal> {
    if number(&data[52..64]) != 0 {
        return Err(WrongField);
    }
    Ok(QData::CatalogNumber(number(&data[..52]), number(&data[64..]) as u8))
}
