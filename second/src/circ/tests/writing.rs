//! Annex C: the writer, against figure C.4.

use super::*;
use crate::codeword::is_codeword;

#[test]
fn zero_frames_give_24_zeros_and_eight_ff() {
    for frame in written(&vec![vec![0; 24]; 150]) {
        assert_eq!(frame[..12], [0; 12]);
        assert_eq!(frame[12..16], [0xFF; 4]);
        assert_eq!(frame[16..28], [0; 12]);
        assert_eq!(frame[28..], [0xFF; 4]);
    }
}

/// Figure C.4 for the rows with F1 bytes: word (less 12n), half (A is 0, B is 1) and delay in frames.
#[rustfmt::skip]
const FIGURE_C_4: [(usize, usize, usize, usize); 24] = [
    (0, 0, 0, 3), (1, 0, 1, 6), (2, 4, 0, 11), (3, 4, 1, 14), (4, 8, 0, 19), (5, 8, 1, 22),
    (6, 1, 0, 27), (7, 1, 1, 30), (8, 5, 0, 35), (9, 5, 1, 38), (10, 9, 0, 43), (11, 9, 1, 46),
    (16, 2, 0, 65), (17, 2, 1, 68), (18, 6, 0, 73), (19, 6, 1, 76), (20, 10, 0, 81), (21, 10, 1, 84),
    (22, 3, 0, 89), (23, 3, 1, 92), (24, 7, 0, 97), (25, 7, 1, 100), (26, 11, 0, 105), (27, 11, 1, 108),
];

#[test]
fn rows_are_those_of_figure_c_4() {
    let frames = some_frames(&mut Random::new(1), 300);
    let f2 = written(&frames);
    for n in 0..frames.len() {
        for (row, word, half, delay) in FIGURE_C_4 {
            let expected = if n < delay { 0 } else { frames[n - delay][2 * word + half] };
            assert_eq!(f2[n][row], expected, "step {n}, row {row}");
        }
    }
}

/// From their output alone: with parity turned back and the delays of figure C.4 undone, each C2 word and each C1 word
/// meets its equations. The Q delays are 49, 52, 57, 60, the P delays 1, 0, 1, 0.
#[test]
fn every_c1_and_c2_word_is_a_codeword() {
    let frames = some_frames(&mut Random::new(2), 300);
    let f2 = written(&frames);
    let turned = |n: usize, row: usize| {
        if is_parity(row) {
            !f2[n][row]
        } else {
            f2[n][row]
        }
    };
    let mut delay = [0; 28];
    for (row, _, _, d) in FIGURE_C_4 {
        delay[row] = if row < 12 { d - 2 } else { d };
    }
    delay[12..16].copy_from_slice(&[49, 52, 57, 60]);
    for n in 0..300 - 109 {
        let c2: Vec<u8> = (0..28).map(|row| turned(n + delay[row], row)).collect();
        assert!(is_codeword(&c2, 4), "C2 word of step {n}");
        let c1: Vec<u8> = (0..32).map(|row| turned(n + 1 - row % 2, row)).collect();
        assert!(is_codeword(&c1, 4), "C1 word of step {n}");
    }
}

/// A single byte among zeros shows in each row first at its delay: the figures for rows 0, 11, 12, 27, 28 and 31.
#[test]
fn delays_of_rows() {
    let first_seen = |byte: usize, row: usize| {
        let mut frames = vec![vec![0; 24]; 150];
        frames[0][byte] = 0x35;
        let quiet = zero_f2()[row];
        written(&frames).iter().position(|frame| frame[row] != quiet)
    };
    assert_eq!(first_seen(0, 0), Some(3));
    assert_eq!(first_seen(19, 11), Some(46));
    assert_eq!(first_seen(4, 12), Some(49));
    assert_eq!(first_seen(23, 27), Some(108));
    // Row 1 enters C1 after 6 frames, and P rows 28 and 31 leave 1 and 0 later.
    assert_eq!(first_seen(1, 28), Some(6 + 1));
    assert_eq!(first_seen(1, 31), Some(6));
}

#[test]
fn refused_steps_leave_the_state_as_it_was() {
    let mut random = Random::new(3);
    let frames = some_frames(&mut random, 150);
    let expected = written(&frames);
    let mut writer = CircWriter::new();
    for (frame, expected) in frames.iter().zip(expected) {
        let before = writer.clone();
        let mut out = [0xAA; 32];
        let mut short = [0xAA; 31];
        assert_eq!(writer.step(&frame[..23], &mut out), Err(WrongIncoming));
        assert_eq!(out, [0; 32]);
        assert_eq!(writer.step(&[0; 25], &mut short), Err(WrongIncoming));
        assert_eq!(writer.step(frame, &mut short), Err(WrongOutgoing));
        assert_eq!(writer.step(frame, &mut []), Err(WrongOutgoing));
        assert_eq!(short, [0xAA; 31]);
        assert_eq!(writer, before);
        assert_eq!(writer.step(frame, &mut out), Ok(()));
        assert_eq!(out, expected.as_slice());
    }
}
