//! Proved alignment against this program: writing at every n, and finding at every place.

use second::alignment::*;
use second::proved::{self, number_of, told_of, Told};
use second::random::Random;
use second::sector::{LENGTH, SYNC};

/// Both writers into buffers that held (AA): the same answer and the same bytes.
fn same_aligned(sectors: &[u8], n: usize, out_length: usize) -> (u8, Vec<u8>) {
    let (mut expected, mut found) = (vec![0xAA; out_length], vec![0xAA; out_length]);
    let answer = number_of(align(sectors, n, &mut expected));
    assert_eq!(proved::align(sectors, n, &mut found), answer);
    assert!(found == expected);
    (answer, found)
}

/// Both searches into buffers that held (AA): the same answer with its values, and the same bytes.
fn same_found(frames: &[u8], out_length: usize) -> (Told<3>, Vec<u8>) {
    let (mut expected, mut found) = (vec![0xAA; out_length], vec![0xAA; out_length]);
    let answer = told_of(find(frames, &mut expected), |at| vec![at.frame, at.n, at.count]);
    assert_eq!(proved::find(frames, &mut found), answer);
    assert!(found == expected);
    (answer, found)
}

/// Sectors of random bytes behind their Sync.
fn sectors(random: &mut Random, count: usize) -> Vec<u8> {
    let mut bytes = random.bytes(LENGTH * count);
    for sector in bytes.chunks_mut(LENGTH) {
        sector[..12].copy_from_slice(&SYNC);
    }
    bytes
}

fn frames_for(n: usize, count: usize) -> usize {
    98 * count + if n == 0 { 0 } else { 1 }
}

fn at(frame: usize, n: usize, count: usize) -> Told<3> {
    Told { number: 0, values: [frame as u64, n as u64, count as u64] }
}

/// Every n and every number of Sectors: written, and found where they were written, byte for byte.
#[test]
fn there_and_back() {
    let mut random = Random::new(1);
    for count in 1..=MOST_SECTORS {
        for n in 0..6 {
            let written = sectors(&mut random, count);
            let (answer, frames) = same_aligned(&written, n, FRAME * frames_for(n, count));
            assert_eq!(answer, 0);
            let (answer, out) = same_found(&frames, ROOM);
            assert_eq!(answer, at(0, n, count));
            assert!(out[..written.len()] == written[..]);
            assert!(out[written.len()..].iter().all(|&byte| byte == 0));
        }
    }
}

/// At n = 0 they are the frames of `cut`, Sector by Sector, and `join` gives them back.
#[test]
fn at_nought() {
    let mut random = Random::new(2);
    for count in 1..=MOST_SECTORS {
        let written = sectors(&mut random, count);
        let (_, frames) = same_aligned(&written, 0, LENGTH * count);
        for (sector, part) in written.chunks(LENGTH).zip(frames.chunks(LENGTH)) {
            let (mut cut, mut joined) = (vec![0; LENGTH], vec![0; LENGTH]);
            assert_eq!(proved::cut(sector, &mut cut), 0);
            assert!(cut == part);
            assert_eq!(proved::join(part, &mut joined), 0);
            assert!(joined == sector);
        }
    }
}

/// Every frame up to 100 and every n, behind frames of random bytes.
#[test]
fn every_frame_offset() {
    let mut random = Random::new(3);
    for offset in 0..=100 {
        for n in 0..6 {
            let count = 1 + random.below(3);
            let written = sectors(&mut random, count);
            let (_, aligned) = same_aligned(&written, n, FRAME * frames_for(n, count));
            let mut frames = random.bytes(FRAME * offset);
            frames.extend(aligned);
            let (answer, out) = same_found(&frames, ROOM);
            assert_eq!(answer, at(offset, n, count));
            assert!(out[..written.len()] == written[..]);
        }
    }
}

/// So many frames, zeros but for Sync at byte `place` of the Sectors' order; what reaches past the end is cut off.
fn with_sync(frames: usize, place: usize) -> Vec<u8> {
    let mut bytes = vec![0; FRAME * frames + 12];
    bytes[place..place + 12].copy_from_slice(&SYNC);
    bytes.truncate(FRAME * frames);
    exchange(&bytes)
}

/// Sync at every byte of the last frames: found where it is whole and begins at a multiple of 4, and then with no whole Sector.
#[test]
fn sync_at_the_end() {
    for frames in [1, 2, 3, 97, 98, MOST_FRAMES] {
        let bytes = FRAME * frames;
        for place in bytes.saturating_sub(60)..bytes {
            let (answer, out) = same_found(&with_sync(frames, place), ROOM);
            let there = place % 4 == 0 && place + 12 <= bytes;
            let expected = if there {
                at(place / 24, place % 24 / 4, 0)
            } else {
                Told { number: 24, values: [0; 3] }
            };
            assert_eq!(answer, expected);
            assert!(out == vec![0; ROOM]);
        }
    }
}

/// Sync around the last place from which 0 to 27 whole Sectors follow.
#[test]
fn sectors_at_the_end() {
    let mut random = Random::new(4);
    for frames in [98, 99, 196, 1000, MOST_FRAMES] {
        let bytes = FRAME * frames;
        for count in 1..=bytes / LENGTH {
            for place in (0..=bytes - LENGTH * count).rev().step_by(4).take(3) {
                let mut row = random.bytes(bytes);
                row[place..place + 12].copy_from_slice(&SYNC);
                let (answer, out) = same_found(&exchange(&row), ROOM);
                assert_eq!(answer, at(place / 24, place % 24 / 4, count));
                assert!(out[..LENGTH * count] == row[place..place + LENGTH * count]);
            }
        }
    }
}

/// Several Syncs at any bytes: the first at a multiple of 4 is found, by frame and then n.
#[test]
fn the_first_place() {
    let mut random = Random::new(5);
    for _ in 0..2_000 {
        let frames = 1 + random.below(300);
        let mut row = random.bytes(FRAME * frames);
        for _ in 0..1 + random.below(5) {
            let place = random.below(row.len());
            let end = row.len().min(place + 12);
            row[place..end].copy_from_slice(&SYNC[..end - place]);
        }
        let first = (0..row.len()).step_by(4).find(|&place| row[place..].starts_with(&SYNC));
        let (answer, _) = same_found(&exchange(&row), ROOM);
        match first {
            Some(place) => {
                assert_eq!(answer, at(place / 24, place % 24 / 4, (row.len() - place) / LENGTH))
            }
            None => assert_eq!(answer.number, 24),
        }
    }
}

/// Lengths around the right ones, every n to 8 and some beyond, and the order of the refusals.
#[test]
fn refusals() {
    let mut random = Random::new(6);
    let mut incoming = vec![0, 1, 24, 2351, 2353, 4703, 37_632, 37_633, 37_656, 39_984, 65_520];
    incoming.extend((1..=17).map(|count| LENGTH * count));
    for &length in &incoming {
        let bytes = random.bytes(length);
        let row = length % LENGTH == 0 && (1..=16).contains(&(length / LENGTH));
        for n in (0..=8).chain([255, 256, usize::MAX / 4, usize::MAX]) {
            let right = FRAME * ((4 * n.min(5) + length + 23) / FRAME);
            for out_length in [0, 1, length, right - right.min(24), right, right + 24, right + 1] {
                let (answer, out) = same_aligned(&bytes, n, out_length);
                let expected = match (row, n <= 5, out_length == right) {
                    (false, _, _) => 1,
                    (true, false, _) => 23,
                    (true, true, false) => 2,
                    (true, true, true) => 0,
                };
                assert_eq!(answer, expected);
                assert!(answer == 0 || out == vec![0xAA; out_length]);
            }
        }
    }
    for length in [0, 1, 23, 24, 25, 48, 2352, 65_519, 65_520, 65_521, 65_544, 131_040] {
        let row = length % FRAME == 0 && (1..=MOST_FRAMES).contains(&(length / FRAME));
        for out_length in [0, 1, 2352, ROOM - 1, ROOM, ROOM + 1, 65_520] {
            let (answer, out) = same_found(&random.bytes(length), out_length);
            let expected = match (row, out_length == ROOM) {
                (false, _) => 1,
                (true, false) => 2,
                (true, true) => 24,
            };
            assert_eq!(answer, Told { number: expected, values: [0; 3] });
            assert!(out == vec![if out_length == ROOM { 0 } else { 0xAA }; out_length]);
        }
    }
}
