//! Reading: damaged bits, lost Sync Headers, SYNCs and words out of place, and lengths.

use super::*;
use crate::of_lengths;

fn flip(channel: &mut [u8], bit: usize) {
    channel[bit / 8] ^= 0x80 >> (bit % 8);
}

/// Wrong bits anywhere but in the headers: every byte and mark, known or not.
#[test]
fn damaged_words() {
    let mut random = Random::new(1);
    let mut unknown = 0;
    for _ in 0..60 {
        let mut channel = section(&mut random);
        for _ in 0..1 + random.below(300) {
            flip(&mut channel, 588 * random.below(98) + 24 + random.below(564));
        }
        let (answer, [_, marks]) = same_read(&channel, [READ_BYTES; 2]);
        assert_eq!(answer, 0);
        unknown += marks.iter().filter(|&&mark| mark == 1).count();
    }
    assert!(unknown > 1_000, "{unknown}");
}

/// Numbers of so many different frames, in no order.
fn some_frames(random: &mut Random, count: usize) -> Vec<usize> {
    let mut frames: Vec<usize> = (0..98).collect();
    (0..count).map(|_| frames.swap_remove(random.below(frames.len()))).collect()
}

/// The Section with a wrong bit at this place of these frames' Sync Headers: each of them is 33 zeros with mark 4, the Control
/// byte's place included, every other frame is as it was, and nothing is refused.
fn lose(channel: &[u8], frames: &[usize], place: usize) {
    let (_, [mut bytes, mut marks]) = same_read(channel, [READ_BYTES; 2]);
    let mut damaged = channel.to_vec();
    for frame in frames {
        flip(&mut damaged, 588 * frame + place);
        bytes[33 * frame..][..33].fill(0);
        marks[33 * frame..][..33].fill(4);
    }
    assert_eq!(same_read(&damaged, [READ_BYTES; 2]), (0, [bytes, marks]));
}

/// 1, 2, 97 and all 98 Sync Headers lost, by each of their 24 bits.
#[test]
fn lost_headers() {
    let mut random = Random::new(2);
    for count in [1, 2, 97, 98] {
        for place in 0..24 {
            let channel = section(&mut random);
            lose(&channel, &some_frames(&mut random, count), place);
        }
    }
}

/// Each of the 98 Sync Headers lost alone, among damaged words; and two neighbours.
#[test]
fn every_header_lost_alone() {
    let mut random = Random::new(6);
    for frame in 0..98 {
        let mut channel = section(&mut random);
        for _ in 0..random.below(300) {
            flip(&mut channel, 588 * random.below(98) + 24 + random.below(564));
        }
        lose(&channel, &[frame], random.below(24));
        lose(&channel, &[frame, (frame + 1) % 98], random.below(24));
    }
}

/// Every word of 14 bits in a Control place and in another one: the SYNCs are marked in the first only.
#[test]
fn every_word_in_each_kind_of_place() {
    let mut random = Random::new(3);
    let mut channel = section(&mut random);
    let place = |channel: &mut [u8], frame: usize, place: usize, word: usize| {
        let start = 588 * frame + 24 + 17 * place + 3;
        for n in 0..14 {
            let bit = start + n;
            channel[bit / 8] &= !(0x80 >> (bit % 8));
            if word >> (13 - n) & 1 == 1 {
                flip(channel, bit);
            }
        }
    };
    let mut met = [0; 4];
    for word in 0..1 << 14 {
        let frame = word % 98;
        place(&mut channel, frame, 0, word);
        place(&mut channel, frame, 1 + word % 32, word);
        if frame == 97 || word + 1 == 1 << 14 {
            let (_, [_, marks]) = same_read(&channel, [READ_BYTES; 2]);
            marks.iter().for_each(|&mark| met[mark as usize] += 1);
        }
    }
    assert!(met.iter().all(|&count| count > 0), "{met:?}");
}

/// Bytes of no order, all zeros and all ones: nothing is refused.
#[test]
fn no_sections() {
    let mut random = Random::new(4);
    for _ in 0..20 {
        assert_eq!(same_read(&random.bytes(PACKED), [READ_BYTES; 2]).0, 0);
    }
    for byte in [0x00, 0xFF] {
        let (answer, read) = same_read(&[byte; PACKED], [READ_BYTES; 2]);
        assert_eq!((answer, read), (0, [vec![0; READ_BYTES], vec![4; READ_BYTES]]));
    }
}

/// Refusals 1 and 2, where either buffer is wrong; the other is cleared.
#[test]
fn lengths() {
    let mut random = Random::new(5);
    let channel = [section(&mut random), vec![0]].concat();
    for incoming in [0, 1, 7202, 7203, 7204] {
        for bytes in [0, 3233, 3234, 3235] {
            for marks in [0, 3233, 3234, 3235, 7203] {
                let (answer, _) = same_read(&channel[..incoming], [bytes, marks]);
                let right = [bytes, marks] == [READ_BYTES; 2];
                assert_eq!(answer, of_lengths(incoming == PACKED, right));
            }
        }
    }
}
