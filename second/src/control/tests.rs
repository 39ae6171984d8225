//! This program alone: a published vector, and one Section by hand.

use super::*;

#[test]
fn crc_of_the_digits_1_to_9() {
    assert_eq!(crc(&unpack(b"123456789")), 0xCE3C);
}

#[test]
fn first_section_of_a_disc() {
    let time = ControlTime(0, 0, 0);
    let q_data = QData::UserData(0x01, 0x01, time, ControlTime(0, 0x02, 0));
    let fields = Fields { flag: true, copying: false, q_data };
    let mut out = [0; CONTROL_BYTES];
    write(&fields, &mut out).unwrap();
    assert_eq!(out[..8], [0x80, 0xC0, 0x80, 0x80, 0x80, 0x80, 0x80, 0xC0]);
    assert_eq!(read(&out), Ok(fields));
}
