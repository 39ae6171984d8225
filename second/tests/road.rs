//! All layers in a row: what is written down to the Channel bits comes up again as it was.

use second::channel::{read_section, SectionWriter, CONTROL_BYTES, PACKED, READ_BYTES};
use second::circ::{CircReader, CircWriter};
use second::random::Random;
use second::scrambling::{cut, join, scramble};
use second::sector::{data_length, empty, judge, repair, write, Passed, LENGTH};

const SECTORS: usize = 6;

/// Sectors of all three modes in turn, those of Mode 00 from an old disc, and what judging must say of them.
fn sectors(random: &mut Random) -> (Vec<u8>, Vec<Passed>) {
    let (mut all, mut passed) = (Vec::new(), Vec::new());
    for n in 0..SECTORS {
        let mode = (n % 3) as u8;
        let address = random.address();
        let mut out = empty(address);
        if let Some(length) = data_length(mode) {
            write(mode, address, &random.bytes(length), &mut out).unwrap();
        }
        all.extend(out);
        passed.push(Passed { mode, address });
    }
    (all, passed)
}

type Step = fn(&[u8], &mut [u8]) -> Result<(), second::refusal::Refusal>;

fn each_sector(bytes: &[u8], step: Step) -> Vec<u8> {
    let mut all = Vec::new();
    for sector in bytes.chunks(LENGTH) {
        let mut out = vec![0; LENGTH];
        step(sector, &mut out).unwrap();
        all.extend(out);
    }
    all
}

/// Down to the Channel bits, with two Sections of zero frames more, as reading is 111 frames late.
fn down(random: &mut Random, sectors: &[u8]) -> Vec<Vec<u8>> {
    let mut frames = each_sector(&each_sector(sectors, scramble), cut);
    frames.extend([0; 2 * LENGTH]);
    let mut writer = CircWriter::new();
    let mut f2 = Vec::new();
    for frame in frames.chunks(24) {
        let mut out = [0; 32];
        writer.step(frame, &mut out).unwrap();
        f2.extend(out);
    }
    let mut writer = SectionWriter::new();
    let mut sections = Vec::new();
    for frames in f2.chunks(98 * 32) {
        let mut out = vec![0; PACKED];
        let control = random.bytes(CONTROL_BYTES);
        writer.write(frames, &control, &mut out).unwrap();
        sections.push(out);
    }
    sections
}

/// Up again: the Sectors and the number of frames in doubt. The marks of a frame go into CIRC with its bytes, those of the Control
/// place stay behind.
fn up(sections: &[Vec<u8>]) -> (Vec<u8>, usize) {
    let mut reader = CircReader::new();
    let (mut frames, mut doubts) = (Vec::new(), 0);
    for section in sections {
        let (mut bytes, mut marks) = (vec![0; READ_BYTES], vec![0; READ_BYTES]);
        read_section(section, &mut bytes, &mut marks).unwrap();
        for (frame, marks) in bytes.chunks(33).zip(marks.chunks(33)) {
            let mut out = [0; 24];
            doubts += reader.step(&frame[1..], &marks[1..], &mut out).unwrap() as usize;
            frames.extend(out);
        }
    }
    let late = &frames[111 * 24..][..SECTORS * LENGTH];
    (each_sector(&each_sector(late, join), scramble), doubts)
}

#[test]
fn there_and_back() {
    let mut random = Random::new(1);
    let (sectors, passed) = sectors(&mut random);
    let sections = down(&mut random, &sectors);
    assert_eq!(sections.len(), SECTORS + 2);
    assert!(up(&sections) == (sectors.clone(), 0));
    for (sector, passed) in sectors.chunks(LENGTH).zip(passed) {
        assert_eq!(judge(sector), Ok(passed));
    }
}

/// One wrong word in every fourth frame: CIRC mends all.
#[test]
fn wrong_words_are_mended_on_the_way() {
    let mut random = Random::new(2);
    let (sectors, _) = sectors(&mut random);
    let mut sections = down(&mut random, &sectors);
    for section in &mut sections {
        for frame in (0..98).step_by(4) {
            let bit = 588 * frame + 24 + 17 * (1 + random.below(32)) + 3 + random.below(14);
            section[bit / 8] ^= 0x80 >> (bit % 8);
        }
    }
    assert!(up(&sections) == (sectors, 0));
}

/// Fifteen frames in a row without a Sync Header: each byte is known to be lost, and CIRC fills all.
#[test]
fn fifteen_lost_frames_are_filled_on_the_way() {
    let mut random = Random::new(4);
    let (sectors, _) = sectors(&mut random);
    let mut sections = down(&mut random, &sectors);
    for frame in 60..75 {
        let bit = 588 * frame + random.below(24);
        sections[3][bit / 8] ^= 0x80 >> (bit % 8);
    }
    assert!(up(&sections) == (sectors, 0));
}

/// What was read is in doubt and no longer what was written; Mode 01 Sectors far from the loss are clean, and nothing false is
/// handed out.
fn doubted_and_nothing_false(sections: &[Vec<u8>], sectors: &[u8]) {
    let (read, doubts) = up(sections);
    assert!(doubts > 0 && read != sectors);
    let mut clean = 0;
    for (received, sector) in read.chunks(LENGTH).zip(sectors.chunks(LENGTH)) {
        let mut out = vec![0; LENGTH];
        match repair(received, &mut out) {
            Ok(changed) => {
                assert!(out == sector);
                clean += (changed == 0) as usize;
            }
            Err(refusal) => assert_eq!(refusal.number(), 5),
        }
    }
    assert!(clean >= 1);
}

/// Thirty frames of zero bytes, in their words and by their Sync Headers.
#[test]
fn a_long_loss_is_doubted_and_never_repaired_into_something_else() {
    let mut random = Random::new(3);
    let (sectors, _) = sectors(&mut random);
    let written = down(&mut random, &sectors);
    let (mut words, mut headers) = (written.clone(), written);
    for frame in 40..70 {
        for place in 1..33 {
            let bit = 588 * frame + 24 + 17 * place + 3;
            for bit in bit..bit + 14 {
                words[2][bit / 8] &= !(0x80 >> (bit % 8));
            }
        }
        let bit = 588 * frame + random.below(24);
        headers[2][bit / 8] ^= 0x80 >> (bit % 8);
    }
    doubted_and_nothing_false(&words, &sectors);
    doubted_and_nothing_false(&headers, &sectors);
}
