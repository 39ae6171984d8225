//! The Control bytes of a Section, and the CRC in them.

use super::{told, Told};
use crate::control::{ControlTime, Fields, Item, QData};

extern "C" {
    fn road_crc(bytes: *const u8, length: usize, out: *mut [u8; 2]);
    fn road_write_control(
        digits: u64,
        fields: *const [u8; 12],
        out: *mut u8,
        out_length: usize,
    ) -> u8;
    fn road_read_control(bytes: *const u8, length: usize, values: *mut [u64; 11]) -> u8;
}

pub fn crc(bytes: &[u8]) -> u16 {
    let mut out = [0xAA; 2];
    unsafe { road_crc(bytes.as_ptr(), bytes.len(), &mut out) }
    u16::from_be_bytes(out)
}

/// The digits of a Catalog Number, and the other fields as the proved code takes them.
fn given(fields: &Fields) -> (u64, [u8; 12]) {
    let none = ControlTime(0, 0, 0);
    let (digits, kind, item, n, index, t, at) = match fields.q_data {
        QData::UserData(tno, index, t, at) => (0, 0, 0, tno, index, t, at),
        QData::LeadOut(t, at) => (0, 1, 0, 0, 0, t, at),
        QData::LeadIn(Item::Track(n, at), t) => (0, 2, 0, n, 0, t, at),
        QData::LeadIn(Item::FirstTrack(n), t) => (0, 2, 1, n, 0, t, none),
        QData::LeadIn(Item::LastTrack(n), t) => (0, 2, 2, n, 0, t, none),
        QData::LeadIn(Item::LeadOut(at), t) => (0, 2, 3, 0, 0, t, at),
        QData::CatalogNumber(digits, frac) => (digits, 3, 0, 0, frac, none, none),
    };
    let control = if fields.copying { 6 } else { 4 };
    let flag = fields.flag as u8;
    (digits, [flag, control, kind, item, n, index, t.0, t.1, t.2, at.0, at.1, at.2])
}

pub fn write_control(fields: &Fields, out: &mut [u8]) -> u8 {
    let (digits, bytes) = given(fields);
    unsafe { road_write_control(digits, &bytes, out.as_mut_ptr(), out.len()) }
}

pub fn read_control(bytes: &[u8]) -> Told<11> {
    told(|values| unsafe { road_read_control(bytes.as_ptr(), bytes.len(), values) })
}
