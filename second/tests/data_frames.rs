//! Data Frames held against the proved code: both sides from buffers that held (AA), the same answer and the same bytes.

mod carrying;

use crate::of_lengths;
use second::codeword::fill;
use second::data_frame::*;
use second::proved::{self, Told};
use second::random::Random;

fn some_fields(random: &mut Random) -> Fields {
    let mut bit = || random.byte() & 1 == 1;
    let (reflectivity, zone, layer) = (bit(), [bit(), bit()], bit());
    Fields {
        reflectivity,
        zone,
        layer,
        number: std::array::from_fn(|_| random.byte()),
        copyright: std::array::from_fn(|_| random.byte()),
    }
}

/// A frame of random fields and Main Data, written on both sides.
fn same_written(fields: Fields, main: &[u8], length: usize) -> (u8, Vec<u8>) {
    let (mut expected, mut found) = (vec![0xAA; length], vec![0xAA; length]);
    let answer = proved::number_of(write(fields, main, &mut expected));
    assert_eq!(proved::write_frame(fields.numbers(), main, &mut found), answer);
    assert!(found == expected);
    (answer, found)
}

fn some_frame(random: &mut Random) -> Vec<u8> {
    let fields = some_fields(random);
    let main = random.bytes(MAIN_DATA);
    same_written(fields, &main, LENGTH).1
}

fn same_read(frame: &[u8], length: usize) -> (Told<13>, Vec<u8>) {
    let (mut expected, mut found) = (vec![0xAA; length], vec![0xAA; length]);
    let answer = read(frame, &mut expected);
    let values = |fields: Fields| fields.numbers().map(usize::from).to_vec();
    let told = proved::read_frame(frame, &mut found);
    assert_eq!(told, proved::told_of(answer, values));
    assert!(found == expected);
    (told, found)
}

/// The EDC worked out afresh over whatever stands before it.
fn seal(frame: &mut [u8]) {
    frame[2060..].fill(0);
    let edc = remainder(frame);
    frame[2060..].copy_from_slice(&edc.to_be_bytes());
}

#[test]
fn what_is_written_is_read_back() {
    let mut random = Random::new(1);
    for _ in 0..500 {
        let fields = some_fields(&mut random);
        let main = random.bytes(MAIN_DATA);
        let (answer, frame) = same_written(fields, &main, LENGTH);
        assert_eq!(answer, 0);
        let (told, back) = same_read(&frame, MAIN_DATA);
        assert_eq!(told, Told { number: 0, values: fields.numbers().map(u64::from) });
        assert!(back == main);
    }
}

#[test]
fn wrong_lengths() {
    let mut random = Random::new(2);
    let fields = some_fields(&mut random);
    for main in [0, 2047, 2048, 2049] {
        for out in [0, 2063, 2064, 2065] {
            let (answer, _) = same_written(fields, &random.bytes(main), out);
            assert_eq!(answer, of_lengths(main == 2048, out == 2064));
        }
    }
    let frame = some_frame(&mut random);
    for length in [0, 6, 2063, 2064, 2065] {
        for main in [0, 2047, 2048, 2049] {
            let mut incoming = frame.clone();
            incoming.resize(length, 0);
            let (told, _) = same_read(&incoming, main);
            assert_eq!(told.number, of_lengths(length == 2064, main == 2048));
        }
    }
}

#[test]
fn every_first_byte() {
    let mut random = Random::new(3);
    let mut read_back = 0;
    for first in 0..=255 {
        let mut frame = some_frame(&mut random);
        frame[0] = first;
        fill(&mut frame[..6], 4, 2);
        seal(&mut frame);
        let number = same_read(&frame, MAIN_DATA).0.number;
        assert_eq!(number, if first & 0b1101_0010 == 0 { 0 } else { 30 });
        read_back += (number == 0) as usize;
    }
    assert_eq!(read_back, 16);
}

#[test]
fn faults_in_their_order() {
    let mut random = Random::new(4);
    for _ in 0..300 {
        let mut frame = some_frame(&mut random);
        frame[random.below(6)] ^= random.change();
        assert_eq!(same_read(&frame, MAIN_DATA).0.number, 28);
        let mut frame = some_frame(&mut random);
        frame[6 + random.below(2058)] ^= random.change();
        assert_eq!(same_read(&frame, MAIN_DATA).0.number, 29);
        let mut frame = some_frame(&mut random);
        frame[0] |= [0x80, 0x40, 0x10, 0x02][random.below(4)];
        fill(&mut frame[..6], 4, 2);
        assert_eq!(same_read(&frame, MAIN_DATA).0.number, 29);
        seal(&mut frame);
        assert_eq!(same_read(&frame, MAIN_DATA).0.number, 30);
    }
}
