//! Clause 19.4 and Annex E: whole Sections written.

use super::*;
use merging::{headers, keeps_the_run_rule, BEFORE_A_HEADER, BEFORE_A_WORD};

/// What holds of any bits that the writer makes, from their first to the last of some Sections in a row and the header
/// that would follow: the run rule, headers at multiples of 588 and nowhere else.
fn assert_keeps_the_rules(channel: &[u8]) {
    let mut bits = unpack(channel);
    bits.extend(SYNC_HEADER);
    assert!(keeps_the_run_rule(&bits));
    let places: Vec<usize> = (0..bits.len() / 588 + 1).map(|n| 588 * n).collect();
    assert_eq!(headers(&bits), places);
}

/// Writes Sections of these bytes one after another, and checks all that is said of them.
fn assert_sections(frames: &[Vec<u8>], control: &[Vec<u8>]) {
    let mut writer = SectionWriter::new();
    let (mut level, mut dsv) = (-1, 0);
    let mut all = Vec::new();
    for (n, (frames, control)) in frames.iter().zip(control).enumerate() {
        let section = written(&mut writer, frames, control);
        assert_eq!(read(&section), expected(frames, control));
        (level, dsv) = after(level, dsv, &unpack(&section));
        assert_eq!((writer.level, writer.dsv), (level, dsv));
        all.extend(section);
        assert_eq!(writer.count, n as u64 + 1);
        assert!(writer.in_range());
    }
    assert_keeps_the_rules(&all);
}

#[test]
fn random_sections() {
    let mut random = Random::new(1);
    let frames: Vec<Vec<u8>> = (0..20).map(|_| random.bytes(FRAME_BYTES)).collect();
    let control: Vec<Vec<u8>> = (0..20).map(|_| random.bytes(CONTROL_BYTES)).collect();
    assert_sections(&frames, &control);
}

#[test]
fn sections_of_one_byte_value_each() {
    let frames: Vec<Vec<u8>> = (0..=255).map(|byte| vec![byte; FRAME_BYTES]).collect();
    let control: Vec<Vec<u8>> = (0..=255).map(|byte| vec![byte; CONTROL_BYTES]).collect();
    assert_sections(&frames, &control);
}

#[test]
fn bytes_that_stress_the_header_rule() {
    let mut random = Random::new(2);
    let mut some = |count: usize| -> Vec<u8> {
        (0..count).map(|_| [0x59, 0x11, 0x80, 0x05, 0x30, 0x01][random.below(6)]).collect()
    };
    let frames: Vec<Vec<u8>> = (0..20).map(|_| some(FRAME_BYTES)).collect();
    let control: Vec<Vec<u8>> = (0..20).map(|_| some(CONTROL_BYTES)).collect();
    assert_sections(&frames, &control);
}

/// Each choice once more, from the bits alone and with all of the history: no other choice that keeps the rules brings
/// the DSV nearer to 0, or as near where it comes earlier in the order. `bits` has the header after the Section.
fn assert_best(bits: &[u8], state: SectionWriter, frame: usize, place: usize) {
    let at = 588 * frame + 24 + 17 * place;
    let end = at + if place == 33 { 3 + 24 } else { 3 + 14 };
    let offered: &[[u8; 3]] = if place == 33 { &BEFORE_A_HEADER } else { &BEFORE_A_WORD };
    let dsv = |bits: &[u8]| after(state.level, state.dsv, &bits[..end]).1.abs();
    let chosen = offered.iter().position(|merging| bits[at..at + 3] == *merging).unwrap();
    for (n, merging) in offered.iter().enumerate() {
        let mut other = bits[..end].to_vec();
        other[at..at + 3].copy_from_slice(merging);
        let own_places = headers(&other).iter().all(|start| start % 588 == 0);
        if keeps_the_run_rule(&other) && own_places {
            assert!(n >= chosen || dsv(&other) > dsv(bits), "frame {frame}, place {place}");
            assert!(n <= chosen || dsv(&other) >= dsv(bits), "frame {frame}, place {place}");
        } else {
            assert_ne!(n, chosen, "frame {frame}, place {place}");
        }
    }
}

/// Of Sections from several states the first frames, and the last choice of all, which looks at the next Section's header.
#[test]
fn every_choice_is_the_best() {
    let mut random = Random::new(3);
    for _ in 0..12 {
        let frames = random.bytes(FRAME_BYTES);
        let control = random.bytes(CONTROL_BYTES);
        let level = 2 * random.below(2) as i64 - 1;
        let before = SectionWriter { level, dsv: random.below(100) as i64 - 50, count: 1 };
        let mut bits = unpack(&written(&mut { before }, &frames, &control));
        bits.extend(SYNC_HEADER);
        for place in 0..34 {
            (0..3).for_each(|frame| assert_best(&bits, before, frame, place));
        }
        assert_best(&bits, before, 97, 32);
        assert_best(&bits, before, 97, 33);
    }
}

/// The first bits: header, 000 and SYNC 0 with document 01's figures for the DSV, and after the second header 010 or 001.
#[test]
fn start_of_a_fresh_section() {
    let bits = unpack(&written(&mut SectionWriter::new(), &[0; FRAME_BYTES], &[0; CONTROL_BYTES]));
    assert_eq!(bits.len(), BITS);
    assert_eq!(bits[..24], SYNC_HEADER);
    assert_eq!(after(-1, 0, &bits[..24]).1, 2);
    assert_eq!(bits[24..27], [0, 0, 0]);
    assert_eq!(bits[27..41], SYNC_0);
    assert_eq!(after(-1, 0, &bits[..41]).1, -3);
    assert_eq!(bits[588..612], SYNC_HEADER);
    assert!([[0, 1, 0], [0, 0, 1]].iter().any(|merging| bits[612..615] == *merging));
    assert_eq!(bits[615..629], SYNC_1);
    assert_eq!(bits[632..646], words()[0]);
}

/// Level and DSV make a difference to what is written, but for both turned round; and a large DSV is brought down.
#[test]
fn the_state_is_carried() {
    let mut random = Random::new(4);
    let frames = random.bytes(FRAME_BYTES);
    let control = random.bytes(CONTROL_BYTES);
    let from = |level, dsv| {
        let mut writer = SectionWriter { level, dsv, count: 1 };
        let section = written(&mut writer, &frames, &control);
        (section, writer.dsv)
    };
    let (plain, turned) = (from(-1, 0), from(1, 0));
    let (high, high_turned) = (from(-1, 400), from(1, 400));
    assert!(plain.0 == turned.0 && plain.1 == -turned.1);
    assert!(from(1, -400).0 == high.0);
    assert!(plain.0 != high.0 && high.0 != high_turned.0);
    assert!(high.1.abs() < 100 && high_turned.1.abs() < 100);
}
