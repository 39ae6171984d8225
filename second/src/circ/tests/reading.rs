//! Annex C and document 01, CIRC: the reader.

use super::*;

#[test]
fn undamaged_frames_come_back_after_111_steps() {
    let frames = some_frames(&mut Random::new(1), 2000);
    assert_eq!(read(&written(&frames)), expected(&frames));
}

#[test]
fn a_fresh_reader_goes_on_from_matching_frames() {
    for (frame, doubt) in read(&vec![zero_f2(); 200]) {
        assert_eq!((frame, doubt), (vec![0; 24], false));
    }
}

/// Odd rows of a frame belong to the next C1 word: a wrong even and a wrong odd byte each frame would be two in a word.
#[test]
fn one_wrong_byte_in_each_frame_is_mended() {
    let mut random = Random::new(2);
    let frames = some_frames(&mut random, 400);
    for odd in 0..2 {
        let mut f2 = written(&frames);
        for frame in &mut f2 {
            frame[2 * random.below(16) + odd] ^= random.change();
        }
        assert_eq!(read(&f2), expected(&frames));
    }
}

/// Three lost frames touch four successive C1 words, of which each C2 word has a byte of one; rows are four apart.
#[test]
fn three_lost_frames_are_mended() {
    let mut random = Random::new(3);
    let frames = some_frames(&mut random, 400);
    for start in [0, 1, 150] {
        let mut f2 = written(&frames);
        for frame in &mut f2[start..start + 3] {
            *frame = random.bytes(32);
        }
        assert_eq!(read(&f2), expected(&frames));
    }
}

/// Two wrong bytes in even rows of single frames: C1 finds no codeword, and marks its word whole. `lost[n]` tells how many of
/// these reach the C2 word of step n. Up to four are filled; more are doubted.
#[test]
fn doubt_is_told_exactly() {
    let mut random = Random::new(4);
    let frames = some_frames(&mut random, 900);
    let mut f2 = written(&frames);
    let mut lost = vec![0; 900];
    for step in random.places(130, 700) {
        for row in [0, 8] {
            f2[step][row] ^= random.change();
        }
        for row in 0..28 {
            lost[step + 4 * (27 - row)] += 1;
        }
    }
    assert!((1..=6).all(|count| lost.contains(&count)));
    let plain = expected(&frames);
    for (n, (frame, doubt)) in read(&f2).into_iter().enumerate() {
        let doubted = lost[n] > 4 || n >= 2 && lost[n - 2] > 4;
        assert_eq!(doubt, doubted, "step {n}");
        if !doubted {
            assert_eq!(frame, plain[n].0, "step {n}");
        }
    }
}

/// Five marked bytes in one C2 word, which hands its bytes on as they came, in two F1-frames: both are in doubt, no third.
#[test]
fn a_lost_c2_word_puts_two_frames_in_doubt_and_goes_on_as_it_came() {
    let frames = some_frames(&mut Random::new(5), 400);
    let mut f2 = written(&frames);
    // Rows 0, 4, 8, 20 and 27 of the C2 word of step 300 come from C1 words that each have two wrong bytes, those of odd rows from
    // the frame before. No other C2 word has five rows of these.
    for row in [0, 4, 8, 20, 27] {
        for wrong in [row, 31 - row] {
            f2[300 - 4 * (27 - row) - wrong % 2][wrong] ^= 0x41;
        }
    }
    let plain = expected(&frames);
    for (n, (frame, doubt)) in read(&f2).into_iter().enumerate() {
        assert_eq!(doubt, n == 300 || n == 302, "step {n}");
        let mut wanted = plain[n].0.clone();
        let rows = match n {
            300 => vec![0, 4, 8],
            302 => vec![20, 27],
            _ => vec![],
        };
        for row in rows {
            wanted[F1_BYTE[row].unwrap()] ^= 0x41;
        }
        assert_eq!(frame, wanted, "step {n}");
    }
}

#[test]
fn refused_steps_leave_the_state_as_it_was() {
    let mut random = Random::new(6);
    let mut f2 = written(&some_frames(&mut random, 150));
    for frame in f2.iter_mut().step_by(3) {
        frame[random.below(32)] ^= random.change();
    }
    let mut reader = CircReader::new();
    let marks = [0; 32];
    for (frame, (bytes, doubt)) in f2.iter().zip(read(&f2)) {
        let before = reader.clone();
        let mut out = [0xAA; 24];
        let mut long = [0xAA; 25];
        assert_eq!(reader.step(&frame[..31], &marks, &mut out), Err(WrongIncoming));
        assert_eq!(out, [0; 24]);
        out.fill(0xAA);
        assert_eq!(reader.step(frame, &marks[..31], &mut out), Err(WrongIncoming));
        assert_eq!(out, [0; 24]);
        assert_eq!(reader.step(&[0; 33], &marks, &mut long), Err(WrongIncoming));
        assert_eq!(reader.step(frame, &[0; 33], &mut long), Err(WrongIncoming));
        assert_eq!(reader.step(frame, &marks, &mut long), Err(WrongOutgoing));
        assert_eq!(reader.step(frame, &marks, &mut []), Err(WrongOutgoing));
        assert_eq!(long, [0xAA; 25]);
        assert_eq!(reader, before);
        assert_eq!(reader.step(frame, &marks, &mut out), Ok(doubt));
        assert_eq!(out, bytes.as_slice());
    }
}
