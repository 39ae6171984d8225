//! Proved captures against this program: both sides into buffers that held (AA), the same answer with its values, and the same bytes.

use second::captures::*;
use second::channel::{unpack, SectionWriter, CONTROL_BYTES, FRAME_BYTES, PACKED};
use second::proved::{self, told_of, Told};
use second::random::Random;

fn bytes_of(counts: &[u16]) -> Vec<u8> {
    counts.iter().flat_map(|count| count.to_be_bytes()).collect()
}

/// Edges at these distances, from a first count on that may wrap.
fn edges(first: u16, distances: &[u16]) -> Vec<u8> {
    let mut counts = vec![first];
    for distance in distances {
        counts.push(counts[counts.len() - 1].wrapping_add(*distance));
    }
    bytes_of(&counts)
}

fn done<const PLACES: usize>(values: [u64; PLACES]) -> Told<PLACES> {
    Told { number: 0, values }
}

fn same_runs(capture: &[u8], out_length: usize) -> (Told<1>, Vec<u8>) {
    let (mut expected, mut found) = (vec![0xAA; out_length], vec![0xAA; out_length]);
    let answer = told_of(runs_of(capture, &mut expected), |used| vec![used]);
    assert_eq!(proved::runs_of(capture, &mut found), answer);
    assert!(found == expected);
    (answer, found)
}

fn same_capture(list: &[u8], out_length: usize) -> (Told<1>, Vec<u8>) {
    let (mut expected, mut found) = (vec![0xAA; out_length], vec![0xAA; out_length]);
    let answer = told_of(capture_of(list, &mut expected), |used| vec![used]);
    assert_eq!(proved::capture_of(list, &mut found), answer);
    assert!(found == expected);
    (answer, found)
}

fn same_replay(capture: &[u8], out_length: usize) -> (Told<2>, Vec<u8>) {
    let (mut expected, mut found) = (vec![0xAA; out_length], vec![0xAA; out_length]);
    let answer = told_of(replay(capture, &mut expected), |r| vec![r.used, r.frames]);
    assert_eq!(proved::replay(capture, &mut found), answer);
    assert!(found == expected);
    (answer, found)
}

/// A capture to its list and back, byte for byte, with zeros behind.
fn there_and_back(capture: &[u8]) {
    let (answer, list) = same_runs(capture, LIST);
    assert_eq!(answer.number, 0);
    let used = answer.values[0] as usize;
    assert!(list[used..].iter().all(|&byte| byte == 0));
    let (answer, back) = same_capture(&list[..used], CAPTURE);
    assert_eq!(answer, done([capture.len() as u64]));
    assert!(back[..capture.len()] == *capture);
    assert!(back[capture.len()..].iter().all(|&byte| byte == 0));
}

/// The distances in bits from each ONE to the next, with one more edge behind the last bit.
fn gaps(bits: &[u8]) -> Vec<u16> {
    let mut ones: Vec<usize> = (0..bits.len()).filter(|n| bits[*n] == 1).collect();
    ones.push(bits.len());
    ones.windows(2).map(|two| (two[1] - two[0]) as u16).collect()
}

fn section(random: &mut Random, writer: &mut SectionWriter) -> Vec<u8> {
    let mut channel = vec![0; PACKED];
    let (frames, control) = (random.bytes(FRAME_BYTES), random.bytes(CONTROL_BYTES));
    writer.write(&frames, &control, &mut channel).unwrap();
    channel
}

/// Captures of random counts, of every length up to 200 edges and of the longest.
#[test]
fn random_captures_that_wrap() {
    let mut random = Random::new(1);
    for edges in (0..200).chain([20_000, 32_767, 32_768]) {
        there_and_back(&random.bytes(2 * edges));
    }
}

/// Each distance from 0 to 65,535 stands in a list, and is replayed or refused at its index.
#[test]
fn every_distance() {
    for part in 0..4u16 {
        let distances: Vec<u16> = (0..16_384).map(|n| 16_384 * part + n).collect();
        there_and_back(&edges(part, &distances));
    }
    let mut random = Random::new(2);
    for distance in 0..=u16::MAX {
        let first = random.number() as u16;
        let (answer, _) = same_replay(&edges(first, &[88, 88, distance]), CAPTURE);
        let expected = match distance {
            20..=91 => done([0, 0]),
            _ => Told { number: 20, values: [2, 0] },
        };
        assert_eq!(answer, expected, "{distance}");
    }
}

/// A Section at eight ticks a bit, and with every distance anywhere within the rounding, comes back whole.
#[test]
fn sections_turned_into_edges() {
    let mut random = Random::new(3);
    let mut writer = SectionWriter::new();
    for jitter in [false, true, true] {
        let channel = section(&mut random, &mut writer);
        let near = |gap: u16, off: usize| 8 * gap + off as u16 - 4;
        let distances: Vec<u16> = gaps(&unpack(&channel))
            .into_iter()
            .map(|gap| near(gap, if jitter { random.below(8) } else { 4 }))
            .collect();
        let capture = edges(random.number() as u16, &distances);
        assert!(capture.len() <= CAPTURE);
        there_and_back(&capture);
        let (answer, frames) = same_replay(&capture, CAPTURE);
        assert_eq!(answer, done([PACKED as u64, 98]));
        assert!(frames[..PACKED] == channel);
        assert!(frames[PACKED..].iter().all(|&byte| byte == 0));
    }
}

/// The first Sync Header decides where frames begin; a capture that begins or ends anywhere keeps the whole ones.
#[test]
fn parts_of_a_section() {
    let mut random = Random::new(4);
    let channel = section(&mut random, &mut SectionWriter::new());
    let distances: Vec<u16> = gaps(&unpack(&channel)).into_iter().map(|gap| 8 * gap).collect();
    let (mut with_frames, mut without_header) = (0, 0);
    for _ in 0..300 {
        let start = random.below(600);
        let end = start + random.below(1500.min(distances.len() - start));
        let capture = edges(random.number() as u16, &distances[start..end]);
        let (answer, _) = same_replay(&capture, CAPTURE);
        with_frames += (answer.values[1] > 0) as usize;
        without_header += (answer.number == 21) as usize;
    }
    assert!(with_frames > 100 && without_header > 5, "{with_frames} {without_header}");
}

/// An illegal run anywhere is refused with its index, before it is asked for a header.
#[test]
fn illegal_runs() {
    let mut random = Random::new(5);
    let mut distances = vec![40u16; 400];
    for index in 0..400 {
        let kept = distances[index];
        for ticks in [0, 19, 92, 65_535] {
            distances[index] = ticks;
            let later = index + random.below(400 - index);
            let behind = distances[later];
            distances[later] = 0;
            let (answer, _) = same_replay(&edges(7, &distances), CAPTURE);
            assert_eq!(answer, Told { number: 20, values: [index as u64, 0] });
            distances[later] = behind;
        }
        distances[index] = kept;
    }
}

/// Headers at every place among random runs, and none; the third ONE needs a further edge.
#[test]
fn headers() {
    let mut random = Random::new(6);
    for place in 0..40 {
        let mut distances: Vec<u16> = (0..place).map(|_| 20 + random.below(60) as u16).collect();
        assert_eq!(same_replay(&edges(0, &distances), CAPTURE).0.number, 21);
        distances.extend([84 + random.below(8) as u16, 84 + random.below(8) as u16]);
        assert_eq!(same_replay(&edges(0, &distances), CAPTURE).0.number, 21);
        distances.push(20);
        assert_eq!(same_replay(&edges(0, &distances), CAPTURE).0, done([0, 0]));
        distances.extend((0..400).map(|_| 20 + random.below(72) as u16));
        assert_eq!(same_replay(&edges(0, &distances), CAPTURE).0.number, 0);
    }
    assert_eq!(same_replay(&[], CAPTURE).0.number, 21);
    assert_eq!(same_replay(&[1, 2], CAPTURE).0.number, 21);
}

/// Every kind of malformed number at every place of a list, and one that is cut off at its end.
#[test]
fn malformed_numbers() {
    let malformed: [&[u8]; 9] = [
        &[0x80, 0x00],
        &[0xFF, 0x00],
        &[0x80, 0x80, 0x00],
        &[0xFF, 0xFF, 0x00],
        &[0x80, 0x80, 0x04],
        &[0xFF, 0xFF, 0x7F],
        &[0x80, 0x80, 0x80, 0x00],
        &[0x80, 0x80, 0x80, 0x01],
        &[0xFF, 0xFF, 0xFF, 0xFF, 0x7F],
    ];
    let cut_off: [&[u8]; 4] = [&[0x80], &[0xFF], &[0xFF, 0x80], &[0xFF, 0xFF, 0x83]];
    let numbers: [&[u8]; 5] = [&[0], &[0x7F], &[0x80, 0x01], &[0xFF, 0x7F], &[0xFF, 0xFF, 0x03]];
    let mut random = Random::new(7);
    for count in 0..60 {
        let list: Vec<&[u8]> = (0..count).map(|_| numbers[random.below(numbers.len())]).collect();
        assert_eq!(same_capture(&list.concat(), CAPTURE).0, done([2 * count as u64]));
        for place in 0..=count {
            for wrong in malformed {
                let with = [&list[..place], &[wrong], &list[place..]].concat().concat();
                assert_eq!(same_capture(&with, CAPTURE).0.number, 19);
            }
        }
        for wrong in cut_off {
            let with = [&list[..], &[wrong]].concat().concat();
            assert_eq!(same_capture(&with, CAPTURE).0.number, 19);
        }
    }
}

/// Lists of random bytes: most are malformed, and those that are not are kept as the same list.
#[test]
fn random_lists() {
    let mut random = Random::new(8);
    let mut accepted = 0;
    for _ in 0..20_000 {
        let length = random.below(12);
        let list = random.bytes(length);
        let (answer, capture) = same_capture(&list, CAPTURE);
        if answer.number == 0 {
            accepted += 1;
            let (again, back) = same_runs(&capture[..answer.values[0] as usize], LIST);
            assert_eq!(again, done([length as u64]));
            assert!(back[..length] == list);
        }
    }
    assert!(accepted > 100);
}

/// The 32,768th number is the last that is taken.
#[test]
fn the_last_number() {
    assert_eq!(same_capture(&[0; 32_768], CAPTURE).0, done([65_536]));
    assert_eq!(same_capture(&[0; 32_769], CAPTURE).0.number, 19);
    let longest = [0xFF, 0xFF, 0x03].repeat(32_768);
    assert_eq!(same_capture(&longest, CAPTURE).0, done([65_536]));
    let one_more = [longest, vec![0]].concat();
    assert_eq!(same_capture(&one_more, CAPTURE).0.number, 1);
}

/// Refusals 1 and 2 of each entry, the first before the second, and nothing touched in a buffer of the wrong length.
#[test]
fn lengths() {
    let capture = edges(0, &[88, 88, 40]);
    for out in [0, 1, CAPTURE - 1, CAPTURE, CAPTURE + 1, LIST - 1, LIST, LIST + 1] {
        for length in [0, 1, 7, 8, CAPTURE - 1, CAPTURE, CAPTURE + 1, CAPTURE + 2] {
            let mut given = capture.clone();
            given.resize(length, 0);
            let wrong = length % 2 == 1 || length > CAPTURE;
            let (runs, _) = same_runs(&given, out);
            let (replayed, _) = same_replay(&given, out);
            if wrong {
                assert_eq!((runs.number, replayed.number), (1, 1));
            } else {
                assert_eq!(runs.number == 2, out != LIST);
                assert_eq!(replayed.number == 2, out != CAPTURE);
            }
        }
        for length in [0, 5, LIST, LIST + 1] {
            let (answer, _) = same_capture(&vec![0x80; length], out);
            let expected = match (length > LIST, out == CAPTURE, length) {
                (true, ..) => 1,
                (_, false, _) => 2,
                (.., 0) => 0,
                _ => 19,
            };
            assert_eq!(answer.number, expected);
        }
    }
}
