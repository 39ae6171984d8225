//! Clause 14: writing.

use super::*;

const ADDRESS: [u8; 3] = [0x12, 0x34, 0x56];

#[test]
fn fields_stand_where_clause_14_says() {
    let mut random = Random::new(1);
    for mode in 1..3 {
        let data = random.bytes(data_length(mode).unwrap());
        let mut out = vec![0xAA; LENGTH];
        assert_eq!(write(mode, ADDRESS, &data, &mut out), Ok(()));
        assert_eq!(out[0], 0x00);
        assert_eq!(out[1..11], [0xFF; 10]);
        assert_eq!(out[11], 0x00);
        assert_eq!(out[12..16], [0x12, 0x34, 0x56, mode]);
        assert_eq!(out[16..16 + data.len()], data);
        match mode {
            1 => assert_eq!(out[2068..2076], [0; 8]),
            _ => assert_eq!(out[16..], data),
        }
    }
}

/// The check equations of 14.3 and Annex A, asked of what was written.
#[test]
fn every_code_of_mode_01_holds() {
    let sector = some_sector(&mut Random::new(2), 1);
    assert_eq!(edc::remainder(&sector[..2068]), 0);
    for n in 0..P_CODEWORDS {
        assert!(is_codeword(&take(&sector, &p_positions(n)), 2));
    }
    for n in 0..Q_CODEWORDS {
        assert!(is_codeword(&take(&sector, &q_positions(n)), 2));
    }
}

#[test]
fn addresses_accepted_and_refused() {
    let mut out = vec![0xAA; LENGTH];
    assert_eq!(write(1, [0x99, 0x59, 0x74], &[7; 2048], &mut out), Ok(()));
    assert_eq!(out[12..15], [0x99, 0x59, 0x74]);
    for refused in [[0x00, 0x60, 0x00], [0x00, 0x00, 0x75], [0x0A, 0x00, 0x00], [0xFA, 0x00, 0x00]]
    {
        out.fill(0xAA);
        assert_eq!(write(1, refused, &[7; 2048], &mut out), Err(WrongAddress));
        assert_eq!(out, [0; LENGTH]);
    }
}

#[test]
fn each_mode_takes_one_length_only() {
    let mut out = vec![0; LENGTH];
    for mode in 1..3 {
        for length in [0, 1, 2047, 2048, 2049, 2335, 2336, 2337] {
            let expected =
                if Some(length) == data_length(mode) { Ok(()) } else { Err(WrongIncoming) };
            assert_eq!(write(mode, ADDRESS, &vec![7; length], &mut out), expected);
        }
    }
}

/// Document 02, 13: no more Mode 00, whatever the user data.
#[test]
fn only_modes_01_and_02_are_written() {
    for mode in (0..=255).filter(|mode| ![1, 2].contains(mode)) {
        for length in [0, 2048, 2336] {
            let mut out = vec![0xAA; LENGTH];
            assert_eq!(write(mode, ADDRESS, &vec![0; length], &mut out), Err(WrongMode));
            assert_eq!(out, [0; LENGTH]);
        }
    }
}

#[test]
fn a_buffer_of_the_wrong_length_is_untouched() {
    for length in [0, 1, 2351, 2353] {
        let mut out = vec![0xAA; length];
        assert_eq!(write(1, ADDRESS, &[7; 2048], &mut out), Err(WrongOutgoing));
        assert_eq!(out, vec![0xAA; length]);
    }
}
