//! Fields by themselves: every value of each in turn, every single-bit fault, wrong lengths.

use super::*;

#[test]
fn allowed_fields_come_back() {
    let mut random = Random::new(30);
    for kind in 0..3500 {
        assert!(there_and_back(&allowed(&mut random, kind)));
    }
}

/// The same fields with the q-Data's bytes and digits changed, one at a time, to every value.
#[test]
fn every_value_of_each_field() {
    let mut random = Random::new(31);
    for kind in 0..7 {
        let fields = allowed(&mut random, kind);
        let mut written = 0;
        for byte in 0..=255u8 {
            for place in 0..8 {
                let mut other = fields;
                change(&mut other.q_data, place, byte);
                written += there_and_back(&other) as usize;
            }
        }
        assert!(written > 0);
        for flag in [false, true] {
            for copying in [false, true] {
                there_and_back(&Fields { flag, copying, ..fields });
            }
        }
    }
}

fn at(t: &mut ControlTime, place: usize, byte: u8) {
    match place {
        0 => t.0 = byte,
        1 => t.1 = byte,
        _ => t.2 = byte,
    }
}

fn change(q_data: &mut QData, place: usize, byte: u8) {
    match (q_data, place) {
        (QData::UserData(tno, ..), 0) => *tno = byte,
        (QData::UserData(_, index, ..), 1) => *index = byte,
        (QData::UserData(_, _, t, _), 2..=4) => at(t, place - 2, byte),
        (QData::UserData(_, _, _, t), _) => at(t, place - 5, byte),
        (QData::LeadOut(t, _), 0..=2) => at(t, place, byte),
        (QData::LeadOut(_, t), _) => at(t, place % 3, byte),
        (QData::LeadIn(_, t), 0..=2) => at(t, place, byte),
        (QData::LeadIn(Item::Track(n, _), _), 3) => *n = byte,
        (QData::LeadIn(Item::Track(_, t) | Item::LeadOut(t), _), _) => at(t, place % 3, byte),
        (QData::LeadIn(Item::FirstTrack(n) | Item::LastTrack(n), _), _) => *n = byte,
        (QData::CatalogNumber(_, frac), 0) => *frac = byte,
        (QData::CatalogNumber(n, _), _) => {
            *n = *n & !(0xFF << (8 * place)) | (byte as u64) << (8 * place)
        }
    }
}

/// Sections whose q bits are any ten bytes with a right CRC: whatever the fields say, both programs say the same.
#[test]
fn every_value_of_each_byte_with_a_right_crc() {
    let mut random = Random::new(32);
    for kind in 0..7 {
        let fields = allowed(&mut random, kind);
        for place in 0..10 {
            for byte in 0..=255u8 {
                let mut ten = fields.ten_bytes();
                ten[place] = byte;
                let mut bits = second::channel::unpack(&ten);
                bits.extend(second::channel::unpack(&crc(&bits).to_be_bytes()));
                assert_eq!(proved::crc(&ten), crc(&bits[..80]));
                let bytes: Vec<u8> =
                    bits.iter().map(|bit| (fields.flag as u8) << 7 | bit << 6).collect();
                match same_read(&bytes) {
                    Ok(found) => assert_eq!(same_written(&found, CONTROL_BYTES), (0, bytes)),
                    Err(refusal) => {
                        assert!(matches!(refusal, Refusal::WrongQMode | Refusal::WrongField))
                    }
                }
            }
        }
    }
}

#[test]
fn every_single_bit_fault() {
    let mut random = Random::new(33);
    for kind in 0..7 {
        let (_, bytes) = same_written(&allowed(&mut random, kind), CONTROL_BYTES);
        for place in 0..CONTROL_BYTES {
            for bit in 0..8 {
                let mut faulty = bytes.clone();
                faulty[place] ^= 1 << bit;
                let expected = if bit == 6 { Refusal::WrongCrc } else { Refusal::WrongField };
                assert_eq!(same_read(&faulty), Err(expected));
            }
        }
    }
}

#[test]
fn wrong_lengths_and_any_bytes() {
    let mut random = Random::new(34);
    let fields = allowed(&mut random, 0);
    for length in [0, 95, 97, 98, 960] {
        assert_eq!(same_written(&fields, length), (2, vec![0xAA; length]));
        assert_eq!(same_read(&random.bytes(length)), Err(Refusal::WrongIncoming));
    }
    for _ in 0..2000 {
        same_read(&random.bytes(CONTROL_BYTES)).unwrap_err();
    }
}
