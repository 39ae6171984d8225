//! Clause 14.2 and Annex A: addresses, P and Q codewords.

use super::*;
use crate::codeword::sum;

#[test]
fn byte_100_is_the_lsb_of_word_44_in_row_1_of_p_codeword_1() {
    assert_eq!(position(44, 0), 100);
    assert_eq!(p_positions(1)[1], 100);
    let mut sector = some_sector(&mut Random::new(1), 1);
    sector[100] ^= 0x01;
    let word = take(&sector, &p_positions(1));
    assert_eq!((sum(0, &word), sum(1, &word)), (0x01, 0x8F));
}

#[test]
fn q_codeword_22_has_word_470_at_40() {
    assert_eq!(q_positions(22)[40], position(470, 0));
    assert_eq!(q_positions(26 + 22)[40], position(470, 1));
}

/// The printed table of Annex A, with 174 and 173 where it has 0147 and 0137.
#[test]
fn words_of_the_q_table() {
    let printed = [
        (0, [0, 44, 88, 642, 686, 730, 1118, 1144]),
        (1, [43, 87, 131, 685, 729, 773, 1119, 1145]),
        (2, [86, 130, 174, 728, 772, 816, 1120, 1146]),
        (3, [129, 173, 217, 771, 815, 859, 1121, 1147]),
        (4, [172, 216, 260, 814, 858, 902, 1122, 1148]),
        (22, [946, 990, 1034, 470, 514, 558, 1140, 1166]),
        (23, [989, 1033, 1077, 513, 557, 601, 1141, 1167]),
        (24, [1032, 1076, 2, 556, 600, 644, 1142, 1168]),
        (25, [1075, 1, 45, 599, 643, 687, 1143, 1169]),
    ];
    for (d, words) in printed {
        for half in 0..2 {
            let positions = q_positions(26 * half + d);
            let shown = [0, 1, 2, 40, 41, 42, 43, 44].map(|column| positions[column]);
            assert_eq!(shown, words.map(|word| position(word, half)));
        }
    }
}

fn sorted(positions: impl Iterator<Item = usize>) -> Vec<usize> {
    let mut all: Vec<usize> = positions.collect();
    all.sort();
    all
}

/// P covers all before the Q parity once, P parity included; Q covers all from byte 12 on once.
#[test]
fn every_byte_is_covered_once() {
    let p = sorted((0..P_CODEWORDS).flat_map(p_positions));
    assert_eq!(p, (12..2248).collect::<Vec<_>>());
    let q = sorted((0..Q_CODEWORDS).flat_map(q_positions));
    assert_eq!(q, (12..2352).collect::<Vec<_>>());
    let p_parity = sorted((0..P_CODEWORDS).flat_map(|n| p_positions(n).split_off(24)));
    assert_eq!(p_parity, (2076..2248).collect::<Vec<_>>());
    let q_parity = sorted((0..Q_CODEWORDS).flat_map(|n| q_positions(n).split_off(43)));
    assert_eq!(q_parity, (2248..2352).collect::<Vec<_>>());
}

#[test]
fn addresses() {
    assert!(address_in_range([0x00, 0x00, 0x00]));
    assert!(address_in_range([0x99, 0x59, 0x74]));
    assert!(address_in_range([0xA0, 0x00, 0x00]));
    assert!(address_in_range([0xF9, 0x59, 0x74]));
    for refused in [[0x00, 0x60, 0x00], [0x00, 0x00, 0x75], [0x0A, 0x00, 0x00], [0xFA, 0x00, 0x00]]
    {
        assert!(!address_in_range(refused));
    }
    // As many bytes pass at each place as there are numbers, and each passes as it is printed; the Lead-in Area has 60 more minutes.
    for (place, bound) in [(0, 100), (1, 60), (2, 75)] {
        let passing: Vec<u8> = (0..=255)
            .filter(|&byte| {
                let mut address = [0; 3];
                address[place] = byte;
                address_in_range(address)
            })
            .collect();
        let printed = |n: u8| u8::from_str_radix(&format!("{n:02}"), 16).unwrap();
        let lead_in = (0..60).filter(|_| place == 0).map(|n| printed(n) + 0xA0);
        assert_eq!(passing, (0..bound).map(printed).chain(lead_in).collect::<Vec<_>>());
    }
}
