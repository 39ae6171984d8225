//! Runs of the proved CIRC writer and reader from a fresh state against this program's.

use second::circ::{CircReader, CircWriter};
use second::proved::{self, Told};
use second::random::Random;

const FRAMES: usize = 2_000;
const LATE: usize = 111;

/// The bytes that come in, for the reader a frame and its marks behind it, and the length of the buffer that is lent.
type Step = (Vec<u8>, usize);
type ProvedRun = fn(&[u8], &mut [u8], &mut [u8]);

/// All steps on both sides, from buffers that held (AA): the answers, number and value of each step, and the buffers.
fn same(
    steps: &[Step],
    proved: ProvedRun,
    mut step: impl FnMut(&[u8], &mut [u8]) -> [u8; 2],
) -> (Vec<[u8; 2]>, Vec<Vec<u8>>) {
    let mut incoming = Vec::new();
    let (mut answers, mut expected_answers) = (Vec::new(), Vec::new());
    let (mut buffers, mut expected_buffers) = (Vec::new(), Vec::new());
    for (frame, out_length) in steps {
        incoming.extend(frame);
        answers.extend([frame.len() as u8, *out_length as u8]);
        buffers.extend(vec![0xAA; *out_length]);
        let mut buffer = vec![0xAA; *out_length];
        expected_answers.push(step(frame, &mut buffer));
        expected_buffers.push(buffer);
    }
    proved(&incoming, &mut answers, &mut buffers);
    assert!(answers == expected_answers.concat());
    assert!(buffers == expected_buffers.concat());
    (expected_answers, expected_buffers)
}

fn written(steps: &[Step]) -> (Vec<[u8; 2]>, Vec<Vec<u8>>) {
    let mut writer = CircWriter::new();
    same(steps, proved::circ_write, |frame, out| [proved::number_of(writer.step(frame, out)), 0])
}

fn read(steps: &[Step]) -> (Vec<[u8; 2]>, Vec<Vec<u8>>) {
    let mut reader = CircReader::new();
    let step = |incoming: &[u8], out: &mut [u8]| {
        let (frame, marks) = incoming.split_at(incoming.len().min(32));
        let answer: Told<1> =
            proved::told_of(reader.step(frame, marks, out), |doubt| vec![doubt as usize]);
        [answer.number, answer.values[0] as u8]
    };
    same(steps, proved::circ_read, step)
}

fn steps(frames: &[Vec<u8>], out_length: usize) -> Vec<Step> {
    frames.iter().map(|frame| (frame.clone(), out_length)).collect()
}

/// Steps of the reader over frames with these marks.
fn marked(frames: &[Vec<u8>], marks: &[Vec<u8>]) -> Vec<Step> {
    frames.iter().zip(marks).map(|(frame, marks)| ([&frame[..], marks].concat(), 24)).collect()
}

fn unmarked(frames: &[Vec<u8>]) -> Vec<Step> {
    marked(frames, &vec![vec![0; 32]; frames.len()])
}

/// 2,000 random frames, and their F2-frames.
fn frames(seed: u64) -> (Random, Vec<Vec<u8>>, Vec<Vec<u8>>) {
    let mut random = Random::new(seed);
    let f1: Vec<Vec<u8>> = (0..FRAMES).map(|_| random.bytes(24)).collect();
    let (_, f2) = written(&steps(&f1, 32));
    (random, f1, f2)
}

/// How many steps were in doubt, where each is done.
fn doubts(answers: &[[u8; 2]]) -> usize {
    assert!(answers.iter().all(|answer| answer[0] == 0));
    answers.iter().filter(|answer| answer[1] == 1).count()
}

#[test]
fn zero_frames() {
    let mut out = [0; 24].to_vec();
    out.extend([0; 8]);
    out[12..16].fill(0xFF);
    out[28..].fill(0xFF);
    let (_, f2) = written(&steps(&vec![vec![0; 24]; 200], 32));
    assert!(f2.iter().all(|frame| *frame == out));
}

#[test]
fn undamaged() {
    let (_, f1, f2) = frames(1);
    let (answers, read) = read(&unmarked(&f2));
    assert_eq!(doubts(&answers), 0);
    assert!(read[..LATE] == vec![vec![0; 24]; LATE]);
    assert!(read[LATE..] == f1[..FRAMES - LATE]);
}

/// A wrong byte in every other F2-frame, anywhere in it, so that no word of C1 has two: all come back.
#[test]
fn single_wrong_bytes() {
    let (mut random, f1, mut f2) = frames(2);
    for frame in f2.iter_mut().step_by(2) {
        frame[random.below(32)] ^= random.change();
    }
    let (answers, read) = read(&unmarked(&f2));
    assert_eq!(doubts(&answers), 0);
    assert!(read[LATE..] == f1[..FRAMES - LATE]);
}

/// Bursts of one to forty F2-frames, whose bytes are of no order: some frames are in doubt, and many are not.
#[test]
fn bursts() {
    let (mut random, _, mut f2) = frames(3);
    for n in 0..10 {
        let start = 200 * n + random.below(100);
        let length = 1 + random.below(40);
        for frame in &mut f2[start..start + length] {
            *frame = random.bytes(32);
        }
    }
    let (answers, _) = read(&unmarked(&f2));
    assert!((100..FRAMES - 100).contains(&doubts(&answers)), "{}", doubts(&answers));
}

/// Two or three wrong bytes in a fourth of the F2-frames: the words of C1 that are lost or falsely mended go on to C2.
#[test]
fn several_wrong_bytes() {
    let (mut random, _, mut f2) = frames(4);
    for frame in &mut f2 {
        if random.below(4) == 0 {
            let count = 2 + random.below(2);
            for place in random.places(count, 32) {
                frame[place] ^= random.change();
            }
        }
    }
    let (answers, _) = read(&unmarked(&f2));
    assert!((100..FRAMES - 100).contains(&doubts(&answers)), "{}", doubts(&answers));
}

/// Steps with a wrong length between the others, which the others do not notice.
#[test]
fn refused_steps_in_between() {
    let (mut random, f1, f2) = frames(5);
    let mut with_refused = |frames: &[Vec<u8>], right: usize| {
        let mut all = Vec::new();
        for frame in frames {
            while random.below(3) == 0 {
                let incoming = [0, 1, 23, 24, 25, 32, 33, 63, 64, 65, 255][random.below(11)];
                let outgoing = [0, 1, 23, 24, 25, 31, 32, 33, 255][random.below(9)];
                if incoming != frame.len() || outgoing != right {
                    all.push((random.bytes(incoming), outgoing));
                }
            }
            all.push((frame.clone(), right));
        }
        all
    };
    let done = |(answers, buffers): (Vec<[u8; 2]>, Vec<Vec<u8>>)| -> Vec<Vec<u8>> {
        let numbers = [1, 2].map(|n| answers.iter().filter(|answer| answer[0] == n).count());
        assert!(numbers.iter().all(|&count| count > 50), "{numbers:?}");
        let pairs = answers.iter().zip(buffers);
        pairs.filter(|(answer, _)| answer[0] == 0).map(|(_, buffer)| buffer).collect()
    };
    assert!(done(written(&with_refused(&f1, 32))) == f2);
    let f2: Vec<Vec<u8>> = unmarked(&f2).into_iter().map(|(incoming, _)| incoming).collect();
    assert!(done(read(&with_refused(&f2, 24)))[LATE..] == f1[..FRAMES - LATE]);
}

/// No marks that say that a byte is lost, and all numbers else.
fn other_marks(random: &mut Random) -> Vec<Vec<u8>> {
    let mark = |random: &mut Random| loop {
        let mark = random.byte();
        if ![1, 4].contains(&mark) {
            return mark;
        }
    };
    (0..FRAMES).map(|_| (0..32).map(|_| mark(random)).collect()).collect()
}

/// Two lost bytes in each C1 word: one in an even row and one in an odd row of each frame. All come back.
#[test]
fn two_lost_bytes() {
    let (mut random, f1, mut f2) = frames(6);
    let mut marks = other_marks(&mut random);
    for (frame, marks) in f2.iter_mut().zip(&mut marks) {
        for row in [2 * random.below(16), 2 * random.below(16) + 1] {
            frame[row] = random.byte();
            marks[row] = [1, 4][random.below(2)];
        }
    }
    let (answers, read) = read(&marked(&f2, &marks));
    assert_eq!(doubts(&answers), 0);
    assert!(read[LATE..] == f1[..FRAMES - LATE]);
}

/// Marks anywhere, sparse and dense in turn, with right and wrong bytes under them and beside them: some frames are in doubt, and
/// many are not.
#[test]
fn marks_anywhere() {
    let (mut random, _, mut f2) = frames(7);
    let mut marks = other_marks(&mut random);
    for n in 0..FRAMES {
        let most = [1, 3, 6, 2][n / 100 % 4];
        let count = random.below(most + 1);
        for place in random.places(count, 32) {
            marks[n][place] = [1, 4][random.below(2)];
            if random.below(2) == 0 {
                f2[n][place] = random.byte();
            }
        }
        if random.below(12) == 0 {
            f2[n][random.below(32)] ^= random.change();
        }
    }
    let (answers, _) = read(&marked(&f2, &marks));
    assert!((100..FRAMES - 100).contains(&doubts(&answers)), "{}", doubts(&answers));
}

/// Bursts of one to twenty lost frames, all their bytes marked: those of up to fifteen come back, and longer ones bring doubt.
#[test]
fn lost_frames_in_a_row() {
    let (mut random, f1, f2) = frames(8);
    for count in 1..=20 {
        let (mut f2, mut marks) = (f2.clone(), other_marks(&mut random));
        for n in 0..3 {
            let start = 500 * n + random.below(200);
            for n in start..start + count {
                f2[n] = random.bytes(32);
                marks[n] = vec![[1, 4][random.below(2)]; 32];
            }
        }
        let (answers, read) = read(&marked(&f2, &marks));
        assert_eq!(doubts(&answers) > 0, count > 15, "{count}");
        assert_eq!(read[LATE..] == f1[..FRAMES - LATE], count <= 15, "{count}");
    }
}

/// Everything is marked: nothing is filled, and all is in doubt but for the first steps.
#[test]
fn all_marked() {
    let (_, _, f2) = frames(9);
    let (answers, _) = read(&marked(&f2, &vec![vec![4; 32]; FRAMES]));
    assert!(doubts(&answers) > FRAMES - 30, "{}", doubts(&answers));
}
