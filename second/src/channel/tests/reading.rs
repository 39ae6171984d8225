//! Document 01, Channel bits: whole Sections read.

use super::*;

/// The first bit of a word: place 0 is that of the Control byte.
fn bit_of(frame: usize, place: usize) -> usize {
    588 * frame + 24 + 17 * place + 3
}

fn with_bits(section: &[u8], at: usize, digits: &[u8]) -> Vec<u8> {
    let mut bits = unpack(section);
    bits[at..at + digits.len()].copy_from_slice(digits);
    pack(&bits)
}

#[test]
fn packing() {
    assert_eq!(pack(&[1, 0, 0, 0, 0, 0, 1, 0, 0, 1, 1, 1, 1, 1, 1, 1]), [0x82, 0x7F]);
    assert_eq!(unpack(&[0x82, 0x7F]), [1, 0, 0, 0, 0, 0, 1, 0, 0, 1, 1, 1, 1, 1, 1, 1]);
}

#[test]
fn what_is_written_is_read() {
    for seed in 0..5 {
        let (section, frames, control) = some_section(seed);
        assert_eq!(read(&section), expected(&frames, &control));
    }
}

#[test]
fn merging_bits_are_ignored() {
    let (section, frames, control) = some_section(10);
    let mut bits = unpack(&section);
    for frame in 0..98 {
        for place in 0..34 {
            for bit in &mut bits[588 * frame + 24 + 17 * place..][..3] {
                *bit ^= 1;
            }
        }
    }
    assert_eq!(read(&pack(&bits)), expected(&frames, &control));
}

/// All 16,384 words in a data place and in a Control place: 256 known, the rest unknown, but for the two SYNCs.
#[test]
fn every_word_in_both_kinds_of_place() {
    let (section, ..) = some_section(11);
    let words = words();
    for start in (0..1 << 14).step_by(96) {
        let mut bits = unpack(&section);
        let numbers = start..(start + 96).min(1 << 14);
        for (n, number) in numbers.clone().enumerate() {
            let word: Vec<u8> = (0..14).rev().map(|bit| (number >> bit & 1) as u8).collect();
            for place in [0, 5] {
                bits[bit_of(n, place)..][..14].copy_from_slice(&word);
            }
        }
        let (bytes, marks) = read(&pack(&bits));
        for (n, number) in numbers.enumerate() {
            let word: Vec<u8> = (0..14).rev().map(|bit| (number >> bit & 1) as u8).collect();
            let data = match words.iter().position(|known| known.as_slice() == word) {
                Some(byte) => (byte as u8, 0),
                None => (0, 1),
            };
            let control = match number {
                0b00100000000001 => (0, 2),
                0b00000000010010 => (0, 3),
                _ => data,
            };
            assert_eq!((bytes[33 * n], marks[33 * n]), control, "{number:014b}");
            assert_eq!((bytes[33 * n + 5], marks[33 * n + 5]), data, "{number:014b}");
        }
    }
}

/// SYNC 0 and 1 exchanged, and in the Control places of the last two frames; known words in their own.
#[test]
fn syncs_in_any_control_place() {
    let (section, frames, control) = some_section(12);
    let mut damaged = section.clone();
    for (frame, word) in [(0, SYNC_1), (1, SYNC_0), (96, SYNC_0), (97, SYNC_1)] {
        damaged = with_bits(&damaged, bit_of(frame, 0), &word);
    }
    let (mut bytes, mut marks) = expected(&frames, &control);
    (marks[0], marks[33]) = (3, 2);
    (bytes[33 * 96], marks[33 * 96]) = (0, 2);
    (bytes[33 * 97], marks[33 * 97]) = (0, 3);
    assert_eq!(read(&damaged), (bytes, marks));
    let known = with_bits(&section, bit_of(0, 0), &words()[0x2A]);
    let (mut bytes, mut marks) = expected(&frames, &control);
    (bytes[0], marks[0]) = (0x2A, 0);
    assert_eq!(read(&known), (bytes, marks));
}

#[test]
fn one_wrong_bit_in_a_word_touches_that_word_only() {
    let mut random = Random::new(13);
    let (section, frames, control) = some_section(13);
    let words = words();
    for _ in 0..200 {
        let (frame, place) = (random.below(98), 1 + random.below(32));
        let at = bit_of(frame, place) + random.below(14);
        let mut bits = unpack(&section);
        bits[at] ^= 1;
        let word = &bits[bit_of(frame, place)..][..14];
        let known = words.iter().position(|known| known == word);
        let (mut bytes, mut marks) = expected(&frames, &control);
        bytes[33 * frame + place] = known.unwrap_or(0) as u8;
        marks[33 * frame + place] = known.is_none() as u8;
        assert_eq!(read(&pack(&bits)), (bytes, marks));
    }
}

fn refused(channel: &[u8]) -> Refusal {
    let (mut bytes, mut marks) = ([0xAA; READ_BYTES], [0xAA; READ_BYTES]);
    let answer = read_section(channel, &mut bytes, &mut marks);
    assert_eq!((bytes, marks), ([0; READ_BYTES], [0; READ_BYTES]));
    answer.unwrap_err()
}

/// Order 1, 2; with two outgoing buffers each is cleared or left by its own length.
#[test]
fn lengths_and_their_order() {
    let (section, ..) = some_section(15);
    for (incoming, right) in [(&section[..], true), (&section[1..], false), (&[0; PACKED], true)] {
        for (first, second) in [(0, 1), (1, 0), (1, 1), (-1, 0), (0, -1), (-1, -1)] {
            let length = |by: isize| (READ_BYTES as isize + by) as usize;
            let mut bytes = vec![0xAA; length(first)];
            let mut marks = vec![0xAA; length(second)];
            let expected = if right { WrongOutgoing } else { WrongIncoming };
            assert_eq!(read_section(incoming, &mut bytes, &mut marks), Err(expected));
            for (buffer, by) in [(bytes, first), (marks, second)] {
                assert_eq!(buffer, vec![if by == 0 { 0 } else { 0xAA }; length(by)]);
            }
        }
    }
    assert_eq!(refused(&section[1..]), WrongIncoming);
    assert_eq!(refused(&[section.as_slice(), &[0]].concat()), WrongIncoming);
    assert_eq!(refused(&[]), WrongIncoming);
}
