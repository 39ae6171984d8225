//! Main Data carried over into Sectors.

use super::*;
use second::sector;

fn same_carried(frames: &[u8], start: [u8; 3], length: usize) -> (u8, Vec<u8>) {
    let (mut expected, mut found) = (vec![0xAA; length], vec![0xAA; length]);
    let answer = proved::number_of(carry(frames, start, &mut expected));
    assert_eq!(proved::carry(frames, start, &mut found), answer);
    assert!(found == expected);
    (answer, found)
}

/// A frame with the fault of this number; with 0 there is none.
fn frame_with(random: &mut Random, fault: u8) -> Vec<u8> {
    let mut frame = some_frame(random);
    match fault {
        28 => frame[4] ^= random.change(),
        29 => frame[700] ^= random.change(),
        30 => {
            frame[0] |= 0x10;
            fill(&mut frame[..6], 4, 2);
            seal(&mut frame);
        }
        _ => {}
    }
    frame
}

/// Sixteen frames and one place for each pair of faults: the first of two faulty frames decides, whichever number is lower.
#[test]
fn of_two_faulty_frames_the_first_decides() {
    let mut random = Random::new(8);
    let clean: Vec<Vec<u8>> = (0..16).map(|_| some_frame(&mut random)).collect();
    for first in [28, 29, 30] {
        for second in [28, 29, 30] {
            let mut frames = clean.clone();
            let place = random.below(15);
            frames[place] = frame_with(&mut random, first);
            frames[place + 1 + random.below(15 - place)] = frame_with(&mut random, second);
            let out = same_carried(&frames.concat(), [0x12, 0x34, 0x56], sector::LENGTH * 16);
            assert_eq!(out, (first, vec![0; sector::LENGTH * 16]));
        }
    }
}

/// 1 and 2 go before a frame's fault, and that before 4 and 31, wherever the frame stands.
#[test]
fn a_faulty_frame_and_another_fault_of_the_call() {
    let mut random = Random::new(9);
    let length = sector::LENGTH * 2;
    for fault in [0, 28, 29, 30] {
        for last in [false, true] {
            let mut two = [frame_with(&mut random, fault), some_frame(&mut random)];
            if last {
                two.reverse();
            }
            let frames = two.concat();
            let number = |start, length| same_carried(&frames, start, length).0;
            let or = |other| if fault == 0 { other } else { fault };
            assert_eq!(number([0x00, 0x59, 0x00], length), or(0));
            assert_eq!(number([0x00, 0x60, 0x00], length), or(4));
            assert_eq!(number([0x99, 0x59, 0x74], length), or(31));
            assert_eq!(number([0x00, 0x60, 0x00], length - 1), 2);
            assert_eq!(same_carried(&frames[1..], [0x00, 0x60, 0x00], length).0, 1);
        }
    }
}

/// A frame with one of the three faults, or none.
fn any_frame(random: &mut Random) -> (u8, Vec<u8>) {
    let fault = [28, 29, 30].get(random.below(12)).copied().unwrap_or(0);
    (fault, frame_with(random, fault))
}

#[test]
fn the_first_faulty_frame_decides() {
    let mut random = Random::new(5);
    for _ in 0..200 {
        let count = 1 + random.below(16);
        let all: Vec<(u8, Vec<u8>)> = (0..count).map(|_| any_frame(&mut random)).collect();
        let frames: Vec<u8> = all.iter().flat_map(|(_, frame)| frame.clone()).collect();
        let first = all.iter().map(|(fault, _)| *fault).find(|&fault| fault != 0).unwrap_or(0);
        let (answer, out) = same_carried(&frames, [0x12, 0x34, 0x56], sector::LENGTH * count);
        assert_eq!(answer, first);
        for (n, part) in out.chunks(sector::LENGTH).enumerate() {
            if answer != 0 {
                assert!(part.iter().all(|&byte| byte == 0));
                continue;
            }
            let mut again = vec![0xAA; sector::LENGTH];
            let told = proved::repair(part, &mut again);
            assert_eq!(told, Told { number: 0, values: [0] });
            assert!(again == part);
            assert!(part[16..2064] == frames[LENGTH * n + 12..LENGTH * n + 2060]);
        }
    }
}

#[test]
fn lengths_of_a_call() {
    let mut random = Random::new(6);
    let frames: Vec<u8> = (0..17).flat_map(|_| some_frame(&mut random)).collect();
    for count in [0, 1, 2, 15, 16, 17] {
        for extra in [0, 1, 2063] {
            let length = (LENGTH * count + extra).min(frames.len());
            let right = length % LENGTH == 0 && (1..=16).contains(&(length / LENGTH));
            let out = sector::LENGTH * (length / LENGTH);
            let (answer, left) = same_carried(&frames[..length], [0, 2, 0], out);
            assert_eq!(answer, if right { 0 } else { 1 });
            if !right {
                assert!(left.iter().all(|&byte| byte == 0xAA));
            } else {
                assert_eq!(same_carried(&frames[..length], [0, 2, 0], out + 1).0, 2);
                assert_eq!(same_carried(&frames[..length], [0, 2, 0], out - 1).0, 2);
            }
        }
    }
}

#[test]
fn addresses_count_up_to_the_end_of_their_area() {
    let mut random = Random::new(7);
    let frames: Vec<u8> = (0..16).flat_map(|_| some_frame(&mut random)).collect();
    let starts = [
        [0x00, 0x00, 0x00],
        [0x00, 0x00, 0x66],
        [0x00, 0x59, 0x65],
        [0x09, 0x59, 0x70],
        [0x59, 0x59, 0x70],
        [0x99, 0x59, 0x58],
        [0x99, 0x59, 0x59],
        [0x99, 0x59, 0x60],
        [0x99, 0x59, 0x74],
        [0xA0, 0x00, 0x00],
        [0xA9, 0x59, 0x70],
        [0xF8, 0x59, 0x74],
        [0xF9, 0x59, 0x58],
        [0xF9, 0x59, 0x59],
        [0xF9, 0x59, 0x60],
        [0xF9, 0x59, 0x74],
        [0x0A, 0x00, 0x00],
        [0x9A, 0x00, 0x00],
        [0xFA, 0x00, 0x00],
        [0x00, 0x60, 0x00],
        [0x00, 0x00, 0x75],
    ];
    let mut seen = std::collections::BTreeSet::new();
    for start in starts {
        for count in [1, 2, 15, 16] {
            let length = sector::LENGTH * count;
            seen.insert(same_carried(&frames[..LENGTH * count], start, length).0);
        }
    }
    assert_eq!(Vec::from_iter(seen), [0, 4, 31]);
    let sixteen = sector::LENGTH * 16;
    assert_eq!(same_carried(&frames, [0x99, 0x59, 0x59], sixteen).0, 0);
    assert_eq!(same_carried(&frames, [0x99, 0x59, 0x60], sixteen).0, 31);
    assert_eq!(same_carried(&frames, [0xF9, 0x59, 0x59], sixteen).0, 0);
    assert_eq!(same_carried(&frames, [0xF9, 0x59, 0x60], sixteen).0, 31);
}
