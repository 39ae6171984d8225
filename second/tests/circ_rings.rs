//! Document 02, 9: single steps of the proved CIRC writer and reader, whose bytes stay where they are, against lines that shift along:
//! answers, outgoing bytes, and the whole state after each step.

use second::circ::{rings, CircReader, CircWriter};
use second::proved::{self, Told};
use second::random::Random;

const STEPS: usize = 5_000;

#[derive(Clone, Debug, PartialEq, Eq)]
struct Writer {
    store: [u8; 1552],
    places: [u8; 55],
}

#[derive(Clone, Debug, PartialEq, Eq)]
struct Reader {
    store: [u8; 3082],
    places: [u8; 56],
}

impl Writer {
    fn new() -> Writer {
        Writer { store: [0; 1552], places: [0; 55] }
    }

    /// A step on both sides, from a buffer that held (AA): the number of the answer, and the buffer.
    fn step(&mut self, frame: &[u8], out_length: usize) -> (u8, Vec<u8>) {
        let mut shifted = self.clone();
        let mut expected = vec![0xAA; out_length];
        let answer = rings::write(&mut shifted.store, &mut shifted.places, frame, &mut expected);
        let mut out = vec![0xAA; out_length];
        let number = proved::circ_write_step(&mut self.store, &mut self.places, frame, &mut out);
        assert_eq!(number, proved::number_of(answer));
        assert_eq!(out, expected);
        assert!(*self == shifted);
        (number, out)
    }
}

impl Reader {
    fn new() -> Reader {
        Reader { store: [0; 3082], places: [0; 56] }
    }

    fn step(&mut self, frame: &[u8], marks: &[u8], out_length: usize) -> (Told<1>, Vec<u8>) {
        let mut shifted = self.clone();
        let mut expected = vec![0xAA; out_length];
        let answer =
            rings::read(&mut shifted.store, &mut shifted.places, frame, marks, &mut expected);
        let mut out = vec![0xAA; out_length];
        let told =
            proved::circ_read_step(&mut self.store, &mut self.places, frame, marks, &mut out);
        assert_eq!(told, proved::told_of(answer, |doubt| vec![doubt as usize]));
        assert_eq!(out, expected);
        assert!(*self == shifted);
        (told, out)
    }
}

/// Marks of all numbers, few of which say that a byte is lost.
fn some_marks(random: &mut Random) -> Vec<u8> {
    let lost = [0, 0, 1, 4][random.below(4)];
    (0..32)
        .map(|_| if random.below(30) == 0 { lost } else { [0, 2, 3, 5, 255][random.below(5)] })
        .collect()
}

/// A wrong length now and then: one of these in place of the right one.
fn length(random: &mut Random, right: usize) -> usize {
    if random.below(8) > 0 {
        return right;
    }
    [0, 1, 23, 24, 25, 31, 32, 33, 255][random.below(9)]
}

/// From new(), with refused steps in between: also as the histories of all frames say.
#[test]
fn five_thousand_steps() {
    let mut random = Random::new(1);
    let (mut writer, mut reader) = (Writer::new(), Reader::new());
    let (mut all_written, mut all_read) = (CircWriter::new(), CircReader::new());
    let mut numbers = [0; 7];
    let mut f2 = vec![0; 32];
    for _ in 0..STEPS {
        let (incoming, outgoing) = (length(&mut random, 24), length(&mut random, 32));
        let frame = random.bytes(incoming);
        let (number, out) = writer.step(&frame, outgoing);
        let mut expected = vec![0xAA; outgoing];
        assert_eq!(number, proved::number_of(all_written.step(&frame, &mut expected)));
        assert_eq!(out, expected);
        numbers[number as usize] += 1;
        if number == 0 {
            f2 = out;
        }
        let mut frame = f2.clone();
        if random.below(4) == 0 {
            frame[random.below(32)] ^= random.change();
        }
        frame.resize(length(&mut random, 32), 0);
        let mut marks = some_marks(&mut random);
        marks.resize(length(&mut random, 32), 0);
        let outgoing = length(&mut random, 24);
        let (told, out) = reader.step(&frame, &marks, outgoing);
        let mut expected = vec![0xAA; outgoing];
        let answer = all_read.step(&frame, &marks, &mut expected);
        assert_eq!(told, proved::told_of(answer, |doubt| vec![doubt as usize]));
        assert_eq!(out, expected);
        numbers[told.number as usize] += 1;
    }
    assert!(numbers[0] > STEPS && numbers[1] > 500 && numbers[2] > 500, "{numbers:?}");
    assert_eq!(numbers[6], 0);
}

fn any_places<const N: usize>(random: &mut Random, lengths: &[usize]) -> [u8; N] {
    let places: Vec<u8> = lengths.iter().map(|&length| random.below(length) as u8).collect();
    places.try_into().expect("as many as rows that wait")
}

/// A few steps from each of many states that no step made.
#[test]
fn from_any_state() {
    let mut random = Random::new(2);
    for _ in 0..400 {
        let store = random.bytes(1552).try_into().expect("1,552");
        let mut writer =
            Writer { store, places: any_places(&mut random, &rings::writer_lengths()) };
        for _ in 0..5 {
            let (frame, outgoing) = (random.bytes(24), length(&mut random, 32));
            writer.step(&frame, outgoing);
        }
        let mut store: [u8; 3082] = random.bytes(3082).try_into().expect("3,082");
        if random.below(2) == 0 {
            for at in (16..32).chain(1544..3056) {
                store[at] = if store[at] < 8 { store[at] } else { 0 };
            }
        }
        let mut reader =
            Reader { store, places: any_places(&mut random, &rings::reader_lengths()) };
        for _ in 0..5 {
            let (frame, marks) = (random.bytes(32), some_marks(&mut random));
            let outgoing = length(&mut random, 24);
            reader.step(&frame, &marks, outgoing);
        }
    }
}

/// Each place at its row's length, one below it and at 255: 6 behind 1 and 2, zeros, and the state as it was; one below it is done.
#[test]
fn each_place() {
    let mut random = Random::new(3);
    let frame = random.bytes(32);
    let marks = some_marks(&mut random);
    let store = random.bytes(1552).try_into().expect("1,552");
    let writer = Writer { store, places: any_places(&mut random, &rings::writer_lengths()) };
    for (row, length) in rings::writer_lengths().into_iter().enumerate() {
        for place in [length, 255] {
            let mut state = writer.clone();
            state.places[row] = place as u8;
            let before = state.clone();
            assert_eq!(state.step(&frame[..24], 32), (6, vec![0; 32]));
            assert_eq!(state.step(&frame[..23], 32), (1, vec![0; 32]));
            assert_eq!(state.step(&frame[..24], 31), (2, vec![0xAA; 31]));
            assert!(state == before);
        }
        let mut state = writer.clone();
        state.places[row] = length as u8 - 1;
        assert_eq!(state.step(&frame[..24], 32).0, 0);
        assert_eq!(state.places[row], 0);
    }
    let store = random.bytes(3082).try_into().expect("3,082");
    let reader = Reader { store, places: any_places(&mut random, &rings::reader_lengths()) };
    for (row, length) in rings::reader_lengths().into_iter().enumerate() {
        for place in [length, 255] {
            let mut state = reader.clone();
            state.places[row] = place as u8;
            let before = state.clone();
            let refused = |number| Told { number, values: [0] };
            assert_eq!(state.step(&frame, &marks, 24), (refused(6), vec![0; 24]));
            assert_eq!(state.step(&frame[..31], &marks, 24), (refused(1), vec![0; 24]));
            assert_eq!(state.step(&frame, &marks[..31], 24), (refused(1), vec![0; 24]));
            assert_eq!(state.step(&frame, &marks, 25), (refused(2), vec![0xAA; 25]));
            assert!(state == before);
        }
        let mut state = reader.clone();
        state.places[row] = length as u8 - 1;
        assert_eq!(state.step(&frame, &marks, 24).0.number, 0);
        assert_eq!(state.places[row], 0);
    }
}
