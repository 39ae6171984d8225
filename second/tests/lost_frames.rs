//! One run of lost frames (document 02, §8) through the proved CIRC writer and reader, both fresh: after up to fifteen every
//! F1-frame comes back, sixteen bring doubt.

use second::proved;
use second::random::Random;
use std::ops::Range;

/// A frame comes back so many steps late.
const LATE: usize = 111;
/// From the first lost frame of sixteen to the step that is in doubt.
const IN_DOUBT: usize = 108;
/// So many steps behind the last lost frame every C2 word with a byte of it has left the reader.
const BEHIND: usize = 112;
const STARTS: usize = 401;
const FRAMES: usize = STARTS + 20 + BEHIND;

/// What comes in place of a lost frame.
type Fill = fn(&mut Random) -> Vec<u8>;
const FILLS: [Fill; 3] = [|_| vec![0; 32], |_| vec![0xFF; 32], |random| random.bytes(32)];

/// A random stream: its F1-frames, and its F2-frames with no marks behind each.
struct Stream {
    f1: Vec<u8>,
    f2: Vec<u8>,
    random: Random,
}

/// What the reader's steps gave: their numbers and doubt marks, and their frames.
struct Given {
    answers: Vec<u8>,
    frames: Vec<u8>,
}

impl Stream {
    fn new(seed: u64) -> Stream {
        let mut random = Random::new(seed);
        let f1 = random.bytes(24 * FRAMES);
        let (mut answers, mut written) = ([24, 32].repeat(FRAMES), vec![0xAA; 32 * FRAMES]);
        proved::circ_write(&f1, &mut answers, &mut written);
        assert!(answers.iter().all(|&answer| answer == 0));
        let f2 = written.chunks(32).flat_map(|frame| [frame, &[0; 32]].concat()).collect();
        Stream { f1, f2, random }
    }

    /// The first `count` frames with these among them lost, each of their bytes marked with 1 or 4.
    fn read(&mut self, count: usize, lost: Range<usize>, fill: Fill) -> Given {
        let mut incoming = self.f2[..64 * count].to_vec();
        for n in lost {
            let marks: Vec<u8> = (0..32).map(|_| [1, 4][self.random.below(2)]).collect();
            let frame = [fill(&mut self.random), marks].concat();
            incoming[64 * n..64 * (n + 1)].copy_from_slice(&frame);
        }
        let (mut answers, mut frames) = ([64, 24].repeat(count), vec![0xAA; 24 * count]);
        proved::circ_read(&incoming, &mut answers, &mut frames);
        Given { answers, frames }
    }

    /// Every F1-frame exactly, 111 steps late, zeros before, and no doubt mark.
    fn is_back(&self, given: &Given) -> bool {
        let (before, back) = given.frames.split_at(given.frames.len().min(24 * LATE));
        given.answers.iter().all(|&answer| answer == 0)
            && before.iter().all(|&byte| byte == 0)
            && *back == self.f1[..back.len()]
    }
}

/// Every start from 0 on, and every length.
#[test]
fn up_to_fifteen_come_back() {
    let mut stream = Stream::new(1);
    for start in 0..STARTS {
        for length in 1..=15 {
            let fill = FILLS[(start + length) % 3];
            let given = stream.read(start + length + BEHIND, start..start + length, fill);
            assert!(stream.is_back(&given), "{length} frames from {start} on");
        }
    }
}

/// Fifteen at the very start and at the very end of streams of many lengths, with each filling.
#[test]
fn at_the_start_and_at_the_end() {
    let mut stream = Stream::new(2);
    for count in 15..300 {
        for fill in FILLS {
            for lost in [0..15, count - 15..count] {
                let given = stream.read(count, lost.clone(), fill);
                assert!(stream.is_back(&given), "{lost:?} of {count}");
            }
        }
    }
}

/// Sixteen, wherever they begin, and more.
#[test]
fn sixteen_bring_doubt() {
    let mut stream = Stream::new(3);
    for start in 0..STARTS {
        for length in [16, 17, 20] {
            let fill = FILLS[(start + length) % 3];
            let given = stream.read(start + length + BEHIND, start..start + length, fill);
            assert!(given.answers.chunks(2).all(|answer| answer[0] == 0));
            assert_eq!(given.answers[2 * (start + IN_DOUBT) + 1], 1, "{length} from {start} on");
        }
    }
}
