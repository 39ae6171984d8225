//! The whole road, down by one program and up by the other: what the proved code writes this program reads, and the other way
//! round.

use second::channel::{
    read_section, SectionWriter, CONTROL_BYTES, FRAME_BYTES, PACKED, READ_BYTES,
};
use second::circ::{CircReader, CircWriter};
use second::proved;
use second::random::Random;
use second::scrambling::{cut, join, scramble};
use second::sector::{data_length, write, LENGTH};

const SECTORS: usize = 12;
const LATE: usize = 111;

/// What both programs do, each in its own way, over all Sectors, frames or Sections in a row.
struct Lanes {
    write: fn(u8, [u8; 3], &[u8], &mut [u8]) -> u8,
    scramble: fn(&[u8], &mut [u8]) -> u8,
    cut: fn(&[u8], &mut [u8]) -> u8,
    join: fn(&[u8], &mut [u8]) -> u8,
    circ_write: fn(&[u8]) -> Vec<u8>,
    /// Frames of 32 bytes, each with its marks behind it.
    circ_read: fn(&[u8]) -> Vec<u8>,
    write_section: fn(&mut SectionWriter, &[u8], &[u8], &mut [u8]) -> u8,
    read_section: fn(&[u8], &mut [u8], &mut [u8]) -> u8,
}

const SECOND: Lanes = Lanes {
    write: |mode, address, data, out| proved::number_of(write(mode, address, data, out)),
    scramble: |sector, out| proved::number_of(scramble(sector, out)),
    cut: |scrambled, out| proved::number_of(cut(scrambled, out)),
    join: |frames, out| proved::number_of(join(frames, out)),
    circ_write: |frames| {
        let mut writer = CircWriter::new();
        let mut all = Vec::new();
        for frame in frames.chunks(24) {
            let mut out = [0; 32];
            writer.step(frame, &mut out).unwrap();
            all.extend(out);
        }
        all
    },
    circ_read: |frames| {
        let mut reader = CircReader::new();
        let mut all = Vec::new();
        for frame in frames.chunks(64) {
            let mut out = [0; 24];
            assert_eq!(reader.step(&frame[..32], &frame[32..], &mut out), Ok(false));
            all.extend(out);
        }
        all
    },
    write_section: |state, frames, control, out| {
        proved::number_of(state.write(frames, control, out))
    },
    read_section: |channel, bytes, marks| proved::number_of(read_section(channel, bytes, marks)),
};

const PROVED: Lanes = Lanes {
    write: proved::write,
    scramble: proved::scramble,
    cut: proved::cut,
    join: proved::join,
    circ_write: |frames| run(proved::circ_write, frames, 24, 32),
    circ_read: |frames| run(proved::circ_read, frames, 64, 24),
    write_section: proved::write_section,
    read_section: proved::read_section,
};

/// A run in which every step is done, without doubt.
fn run(steps: fn(&[u8], &mut [u8], &mut [u8]), frames: &[u8], from: u8, to: u8) -> Vec<u8> {
    let count = frames.len() / from as usize;
    let mut answers = [from, to].repeat(count);
    let mut out = vec![0; to as usize * count];
    steps(frames, &mut answers, &mut out);
    assert!(answers.iter().all(|&answer| answer == 0));
    out
}

fn each(bytes: &[u8], step: fn(&[u8], &mut [u8]) -> u8) -> Vec<u8> {
    let mut all = vec![0; bytes.len()];
    for (sector, out) in bytes.chunks(LENGTH).zip(all.chunks_mut(LENGTH)) {
        assert_eq!(step(sector, out), 0);
    }
    all
}

/// Sectors of both modes, and the Sections that they become, with two Sections of zero frames behind them.
fn down(lanes: &Lanes, random: &mut Random) -> (Vec<u8>, Vec<u8>) {
    let mut sectors = vec![0; SECTORS * LENGTH];
    for (n, out) in sectors.chunks_mut(LENGTH).enumerate() {
        let mode = 1 + (n % 2) as u8;
        let data = random.bytes(data_length(mode).unwrap());
        assert_eq!((lanes.write)(mode, random.address(), &data, out), 0);
    }
    let mut frames = each(&each(&sectors, lanes.scramble), lanes.cut);
    frames.extend([0; 2 * LENGTH]);
    let f2 = (lanes.circ_write)(&frames);
    let mut state = SectionWriter::new();
    let mut channel = vec![0; f2.len() / FRAME_BYTES * PACKED];
    for (frames, out) in f2.chunks(FRAME_BYTES).zip(channel.chunks_mut(PACKED)) {
        let control = random.bytes(CONTROL_BYTES);
        assert_eq!((lanes.write_section)(&mut state, frames, &control, out), 0);
    }
    (sectors, channel)
}

/// CIRC takes the marks of a frame with its bytes, and those of the Control place stay behind.
fn up(lanes: &Lanes, channel: &[u8]) -> Vec<u8> {
    let mut f2 = Vec::new();
    for section in channel.chunks(PACKED) {
        let (mut bytes, mut marks) = (vec![0; READ_BYTES], vec![0; READ_BYTES]);
        assert_eq!((lanes.read_section)(section, &mut bytes, &mut marks), 0);
        for (frame, marks) in bytes.chunks(33).zip(marks.chunks(33)) {
            f2.extend([&frame[1..], &marks[1..]].concat());
        }
    }
    let frames = (lanes.circ_read)(&f2);
    let late = &frames[LATE * 24..][..SECTORS * LENGTH];
    each(&each(late, lanes.join), lanes.scramble)
}

#[test]
fn there_and_back_by_every_lane() {
    let mut random = Random::new(1);
    for (writing, reading) in
        [(&PROVED, &PROVED), (&PROVED, &SECOND), (&SECOND, &PROVED), (&SECOND, &SECOND)]
    {
        let (sectors, channel) = down(writing, &mut random);
        assert!(up(reading, &channel) == sectors);
    }
}

/// From the same data both write the same Channel bits.
#[test]
fn the_same_channel_bits() {
    assert!(down(&PROVED, &mut Random::new(2)) == down(&SECOND, &mut Random::new(2)));
}

/// Fifteen Sync Headers in a row lost in every other Section: the marks of their frames reach C2 with them, and CIRC fills all.
#[test]
fn lost_headers_are_filled_on_the_way() {
    let mut random = Random::new(3);
    for reading in [&PROVED, &SECOND] {
        let (sectors, mut channel) = down(&PROVED, &mut random);
        for section in channel.chunks_mut(2 * PACKED) {
            let first = random.below(98 - 15);
            for frame in first..first + 15 {
                let bit = 588 * frame + random.below(24);
                section[bit / 8] ^= 0x80 >> (bit % 8);
            }
        }
        assert!(up(reading, &channel) == sectors);
    }
}
