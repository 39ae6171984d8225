//! Writing: bytes of every kind, and states at the edges of refusals 9 and 7.

use super::*;
use crate::of_lengths;

/// From the state on; and what was written is read back on both sides.
fn there_and_back(state: &mut SectionWriter, frames: &[u8], control: &[u8]) {
    let (answer, channel) = same_written(state, frames, control, PACKED);
    assert_eq!(answer, 0);
    assert_eq!(same_read(&channel, [READ_BYTES; 2]), (0, as_read(frames, control)));
}

#[test]
fn a_new_writer() {
    assert_eq!(proved::new_section_writer(), SectionWriter::new());
}

/// 200 Sections in a row, each from the state that the one before handed back.
#[test]
fn random_bytes() {
    let mut random = Random::new(1);
    let mut state = SectionWriter::new();
    for n in 1..=200 {
        there_and_back(&mut state, &random.bytes(FRAME_BYTES), &random.bytes(CONTROL_BYTES));
        assert_eq!(state.count, n);
    }
}

#[test]
fn one_byte_value_each() {
    let mut state = SectionWriter::new();
    for byte in 0..=255 {
        there_and_back(&mut state, &[byte; FRAME_BYTES], &[byte; CONTROL_BYTES]);
    }
}

/// The bytes whose words come near to the Sync Header, in random order and in random company.
#[test]
fn bytes_that_stress_the_header_rule() {
    const STRESS: [u8; 5] = [0x59, 0x11, 0x80, 0x05, 0x30];
    let mut random = Random::new(2);
    let mut state = SectionWriter::new();
    for n in 0..40 {
        let mut bytes = |count: usize| -> Vec<u8> {
            let byte = |random: &mut Random| match random.below(1 + n % 4) {
                0 => STRESS[random.below(5)],
                _ => random.byte(),
            };
            (0..count).map(|_| byte(&mut random)).collect()
        };
        there_and_back(&mut state, &bytes(FRAME_BYTES), &bytes(CONTROL_BYTES));
    }
}

/// Levels, counts and DSVs on both sides of each edge: 9 before 7, and neither where the state is possible.
#[test]
fn states() {
    let mut random = Random::new(3);
    let (frames, control) = (random.bytes(FRAME_BYTES), random.bytes(CONTROL_BYTES));
    let mut met = [0; 10];
    for level in [-1, 1, 0, 2, -2, i64::MIN, i64::MAX] {
        for count in [0, 1, 2, 449_999, 450_000, 450_001, u64::MAX] {
            let edge = (57_624u64).saturating_mul(count).min(i64::MAX as u64) as i64;
            for dsv in [0, 1, -1, edge, -edge, edge - 1, edge.saturating_add(1)] {
                for dsv in [dsv, dsv.saturating_neg(), i64::MIN, i64::MAX] {
                    let mut state = SectionWriter { level, dsv, count };
                    let (answer, _) = same_written(&mut state, &frames, &control, PACKED);
                    met[answer as usize] += 1;
                }
            }
        }
    }
    assert!(met[0] >= 40 && met[7] >= 10 && met[9] >= 100, "{met:?}");
}

/// Refusals 1 and 2 in their order, before those of the state, which is handed back as it was, possible or not.
#[test]
fn lengths() {
    let mut random = Random::new(4);
    let states = [
        (0, SectionWriter::new()),
        (7, SectionWriter { level: 1, dsv: -40, count: 450_000 }),
        (9, SectionWriter { level: 0, dsv: 1, count: 0 }),
    ];
    for frames in [0, 32, 3135, 3136, 3137, 3232] {
        for control in [0, 95, 96, 97, 98] {
            for out in [0, 7202, 7203, 7204, 8000] {
                for (number, before) in states {
                    let expected = match of_lengths([frames, control] == [3136, 96], out == 7203) {
                        0 => number,
                        refusal => refusal,
                    };
                    let mut state = before;
                    let (frames, control) = (random.bytes(frames), random.bytes(control));
                    assert_eq!(same_written(&mut state, &frames, &control, out).0, expected);
                    assert_eq!(state == before, expected != 0);
                }
            }
        }
    }
}
