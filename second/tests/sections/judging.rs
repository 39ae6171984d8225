//! Judging: our writer's Sections and a partner's, and streams in which one thing is wrong.

use super::partner::*;
use super::*;
use second::channel::merging::{
    headers, keeps_the_run_rule, Merging, BEFORE_A_HEADER, BEFORE_A_WORD,
};
use second::channel::words::{words, Word, SYNC_0, SYNC_1, SYNC_HEADER};

/// Every stretch of one to nine of twelve Sections that the proved writer makes.
#[test]
fn our_own_pass() {
    let mut random = Random::new(1);
    let mut state = SectionWriter::new();
    let mut channel = Vec::new();
    for _ in 0..12 {
        let (frames, control) = (random.bytes(FRAME_BYTES), random.bytes(CONTROL_BYTES));
        let mut out = vec![0; PACKED];
        assert_eq!(proved::write_section(&mut state, &frames, &control, &mut out), 0);
        channel.extend(out);
    }
    for first in 0..12 {
        for last in first + 1..=12.min(first + 9) {
            assert_eq!(same_judged(&channel[PACKED * first..PACKED * last]), ACCEPTED);
        }
    }
}

/// A partner's Sections pass, and are read without marks 1 and 4 and with the SYNCs at their places.
#[test]
fn a_partner_passes() {
    let mut random = Random::new(2);
    for count in [1, 2, 3, 9] {
        let channel = pack(&partner(&mut random, count));
        assert_eq!(same_judged(&channel), ACCEPTED);
        for section in channel.chunks(PACKED) {
            let (answer, [_, marks]) = same_read(section, [READ_BYTES; 2]);
            assert_eq!(answer, 0);
            let expected = |place| [2, 3].get(place / 33).filter(|_| place % 33 == 0);
            for (place, mark) in marks.iter().enumerate() {
                assert_eq!(mark, expected(place).unwrap_or(&0));
            }
        }
    }
}

/// Words that no table has, and SYNCs out of place, with Merging bits that keep every other rule: 27 at the word's first bit.
#[test]
fn only_words_are_wrong() {
    let mut random = Random::new(5);
    let listed = words();
    let fits = |word: &Word| word.contains(&1) && keeps_the_run_rule(word);
    let strangers: Vec<Word> = (0..1 << 14)
        .map(|n| std::array::from_fn(|digit| (n >> (13 - digit) & 1) as u8))
        .filter(|word| !listed.contains(word) && *word != SYNC_0 && *word != SYNC_1 && fits(word))
        .collect();
    let mut met = 0;
    for n in 0..60 {
        let (count, place) = (1 + n % 2, random.below(33));
        let frame = random.below(98 * count);
        let stranger = strangers[random.below(strangers.len())];
        let change = |f, p, word| if (f, p) == (frame, place) { stranger } else { word };
        if let Some(bits) = changed(&mut random, count, change) {
            assert_eq!(same_judged(&pack(&bits)), (27, 588 * frame + 27 + 17 * place));
            met += 1;
        }
    }
    assert!(met > 10, "{met}");
    let exchanged = |f, p, word| match (f, p) {
        (0, 0) => SYNC_1,
        (1, 0) => SYNC_0,
        _ => word,
    };
    let bits = changed(&mut random, 1, exchanged).expect("some Merging bits are allowed");
    assert_eq!(same_judged(&pack(&bits)), (27, 27));
    let late = |f, p, word| if (f, p) == (100, 0) { SYNC_0 } else { word };
    let bits = changed(&mut random, 2, late).expect("some Merging bits are allowed");
    assert_eq!(same_judged(&pack(&bits)), (27, 588 * 100 + 27));
}

/// Merging bits that make a second Sync Header across the borders of words, with every run right: 26 at its own first bit.
#[test]
fn only_a_header_is_extra() {
    let mut random = Random::new(6);
    let words = words();
    for _ in 0..3 {
        let mut bits = SYNC_HEADER.to_vec();
        let mut extra = None;
        for frame in 0..98 {
            for place in 0..33 {
                let word = word_at(&mut random, &words, frame, place);
                let tail = bits[bits.len() - 23..].to_vec();
                let makes_one = |merging: &&Merging| {
                    let more = [&tail[..], &merging[..], &word].concat();
                    keeps_the_run_rule(&more) && !headers(&more).is_empty()
                };
                let found = BEFORE_A_WORD.iter().find(makes_one);
                if let (None, Some(merging)) = (extra, found) {
                    let more = [&tail[..], &merging[..], &word].concat();
                    extra = Some(bits.len() - 23 + headers(&more)[0]);
                    bits.extend(merging);
                    bits.extend(word);
                } else {
                    let done = any_of(&mut random, &mut bits, &BEFORE_A_WORD, &word);
                    done.expect("some Merging bits are allowed");
                }
            }
            let done = any_of(&mut random, &mut bits, &BEFORE_A_HEADER, &SYNC_HEADER);
            done.expect("some Merging bits are allowed");
        }
        bits.truncate(BITS);
        let bit = extra.expect("some words let a Sync Header be made");
        assert_eq!(same_judged(&pack(&bits)), (26, bit));
    }
}

/// The Sync Header that is taken to follow: all Merging bits before it, and the last position of all, 518,616.
#[test]
fn the_very_end() {
    let mut random = Random::new(7);
    let mut last = 0;
    for _ in 0..20 {
        let clean = partner(&mut random, 1);
        for merging in 0..8 {
            let mut bits = clean.clone();
            put(&mut bits, BITS - 3, &[merging >> 2 & 1, merging >> 1 & 1, merging & 1]);
            last += (same_judged(&pack(&bits)) == (25, BITS)) as usize;
        }
    }
    assert!(last > 0);
    let mut bits = partner(&mut random, 9);
    put(&mut bits, 9 * BITS - 17, &[0, 0, 0, 0, 0, 0, 0, 0, 0, 0, 0, 0, 0, 0, 0, 1, 0]);
    same_judged(&pack(&bits));
    let endings = BEFORE_A_WORD
        .iter()
        .flat_map(|merging| words().into_iter().map(move |word| [&word[..], merging].concat()));
    let before = bits[..9 * BITS - 17].to_vec();
    let early = endings.map(|ending| [&before[..], &ending].concat()).find(|bits| {
        let stream = [&bits[9 * BITS - 40..], &SYNC_HEADER].concat();
        keeps_the_run_rule(&bits[9 * BITS - 40..]) && !keeps_the_run_rule(&stream)
    });
    let answer = same_judged(&pack(&early.expect("some ending comes too near")));
    assert_eq!(answer, (25, 518_616));
}

/// Bytes of no order, all zeros and all ones.
#[test]
fn no_sections() {
    let mut random = Random::new(8);
    for _ in 0..20 {
        assert_eq!(same_judged(&random.bytes(PACKED)), (26, 0));
    }
    for byte in [0x00, 0xFF] {
        assert_eq!(same_judged(&[byte; 2 * PACKED]), (26, 0));
    }
}

/// Refusal 1: anything but one to nine whole Sections.
#[test]
fn lengths() {
    for length in [0, 1, 7202, 7204, 2 * PACKED - 1, 9 * PACKED + 1, 10 * PACKED, 11 * PACKED] {
        assert_eq!(same_judged(&vec![0x80; length]), (1, 0));
    }
}
