//! Document 02, 7: the reader with marks.

use super::*;

fn no_marks(count: usize) -> Vec<Vec<u8>> {
    vec![vec![0; 32]; count]
}

/// One in an even row and one in an odd row of each frame: a C1 word has the even rows of one frame and the odd rows of the
/// frame before it, so each has two.
#[test]
fn two_lost_bytes_in_each_c1_word_are_filled() {
    let mut random = Random::new(11);
    let frames = some_frames(&mut random, 400);
    let (mut f2, mut marks) = (written(&frames), no_marks(400));
    for (frame, marks) in f2.iter_mut().zip(&mut marks) {
        for row in [2 * random.below(16), 2 * random.below(16) + 1] {
            frame[row] = random.byte();
            marks[row] = [1, 4][random.below(2)];
        }
    }
    assert_eq!(read_marked(&f2, &marks), expected(&frames));
}

/// Marks other than 1 and 4 mark nothing as lost: two wrong bytes in a C1 word stay wrong bytes.
#[test]
fn other_marks_say_nothing() {
    let mut random = Random::new(12);
    let frames = some_frames(&mut random, 300);
    let mut f2 = written(&frames);
    for frame in f2.iter_mut().step_by(7) {
        for row in [4, 10] {
            frame[row] ^= random.change();
        }
    }
    let others: Vec<u8> = (0..=255).filter(|mark| ![1, 4].contains(mark)).collect();
    let marks: Vec<Vec<u8>> =
        f2.iter().map(|_| (0..32).map(|_| others[random.below(254)]).collect()).collect();
    assert_eq!(read_marked(&f2, &marks), read(&f2));
}

/// With one mark in a C1 word a wrong byte beside it is found out: the word goes on as it came, marked whole, and C2 fills it.
#[test]
fn a_wrong_byte_beside_a_mark_is_found_out() {
    let mut random = Random::new(13);
    let frames = some_frames(&mut random, 400);
    let (mut f2, mut marks) = (written(&frames), no_marks(400));
    for step in (0..400).step_by(11) {
        f2[step][6] = random.byte();
        marks[step][6] = 1;
        f2[step][12] ^= random.change();
    }
    assert_eq!(read_marked(&f2, &marks), expected(&frames));
}

/// Lost frames in a row: fifteen are filled, wherever they begin; sixteen bring doubt.
#[test]
fn fifteen_lost_frames_in_a_row_are_filled() {
    let mut random = Random::new(14);
    let frames = some_frames(&mut random, 400);
    for start in [0, 1, 57, 150] {
        for count in [1, 15, 16] {
            let (mut f2, mut marks) = (written(&frames), no_marks(400));
            for n in start..start + count {
                f2[n] = vec![0; 32];
                marks[n] = vec![4; 32];
            }
            let found = read_marked(&f2, &marks);
            assert_eq!(found == expected(&frames), count < 16);
            assert_eq!(found.iter().any(|step| step.1), count == 16);
        }
    }
}

/// Everything lost: every step after the first C2 word with five marks is in doubt.
#[test]
fn all_marked_is_all_in_doubt() {
    let frames = some_frames(&mut Random::new(15), 200);
    let marks = vec![vec![1; 32]; 200];
    let found = read_marked(&written(&frames), &marks);
    assert!(found[20..].iter().all(|step| step.1));
}
