//! Annex E: Merging bits allowed and chosen.

use super::*;
use crate::channel::merging::*;
use words::digits;

/// The allowed ones as text, in their order.
fn offers(written: &[u8], following: &[u8]) -> Vec<String> {
    let offered: &[Merging] =
        if following == SYNC_HEADER { &BEFORE_A_HEADER } else { &BEFORE_A_WORD };
    let allowed = offered.iter().filter(|merging| allowed(written, **merging, following));
    allowed.map(|merging| merging.map(|bit| bit.to_string()).concat()).collect()
}

#[test]
fn after_a_header_sync_1_allows_only_010_and_001() {
    assert_eq!(offers(&SYNC_HEADER, &SYNC_1), ["010", "001"]);
}

#[test]
fn before_a_header_the_word_of_11_allows_only_100_and_that_of_80_only_000() {
    for (byte, only) in [(0x11, "100"), (0x80, "000")] {
        let word = words()[byte];
        for merging in BEFORE_A_WORD {
            if allowed(&SYNC_HEADER, merging, &word) {
                let written = [SYNC_HEADER.as_slice(), &merging, &word].concat();
                assert_eq!(offers(&written, &SYNC_HEADER), [only]);
            }
        }
        assert_eq!(offers(&word, &SYNC_HEADER), [only]);
    }
}

#[test]
fn dsv_after_the_first_header_and_after_000_and_sync_0() {
    let (level, dsv) = after(-1, 0, &SYNC_HEADER);
    assert_eq!((level, dsv), (1, 2));
    assert_eq!(after(level, dsv, &[&[0, 0, 0], SYNC_0.as_slice()].concat()), (1, -3));
}

#[test]
fn runs_of_two_to_ten() {
    for zeros in 0..20 {
        let bits = [vec![0, 0, 0, 1], vec![0; zeros], vec![1, 0]].concat();
        assert_eq!(keeps_the_run_rule(&bits), (2..=10).contains(&zeros));
    }
    assert!(keeps_the_run_rule(&[0; 30]));
}

/// After a header nine more ZEROs, a ONE and a ZERO complete the 24 digits from its second ONE on.
#[test]
fn a_second_header_is_seen() {
    let word = digits("00000010000000");
    assert_eq!(offers(&SYNC_HEADER, &word), ["010", "001"]);
    let bits = [SYNC_HEADER.as_slice(), &[0, 0, 0], &word].concat();
    assert!(keeps_the_run_rule(&bits));
    assert_eq!(headers(&bits), [0, 11]);
}

/// The last digit alone may be new: after these 23 any Merging bits that keep the runs begin with it.
#[test]
fn a_second_header_is_seen_at_its_last_digit() {
    let word = digits("00100100000000");
    assert_eq!(offers(&SYNC_HEADER[..23], &word), Vec::<String>::new());
    assert_eq!(offers(&SYNC_HEADER[1..23], &word), ["001", "000"]);
}

/// Nine ZEROs twice, the 22 digits that Annex E prints, may stand; ten twice may not.
#[test]
fn clause_19_2_decides_over_annex_e() {
    let word = digits("10010000000000");
    assert_eq!(offers(&digits("10000000001000000"), &word), ["100", "000"]);
    assert_eq!(offers(&digits("100000000010000000"), &word), ["100", "000"]);
    assert_eq!(offers(&digits("1000000000010000000"), &word), ["100"]);
}

/// The choices of a DSV of `d` and level +1, worked out by hand: d-11 after 100, d-9 after 010, d-7 after 001 and d+11
/// after 000. Of equals 100 goes before 010, 010 before 001, and 001 before 000.
#[test]
fn choices() {
    let written = digits("00000100000100");
    let word = digits("00100100000000");
    let four = BEFORE_A_WORD.map(|m| after(1, 0, &[&m, word.as_slice()].concat()).1);
    assert_eq!(four, [-11, -9, -7, 11]);
    let expected = [
        (20, [1, 0, 0]),
        (10, [1, 0, 0]),
        (9, [0, 1, 0]),
        (8, [0, 1, 0]),
        (7, [0, 0, 1]),
        (-2, [0, 0, 1]),
        (-3, [0, 0, 0]),
        (-20, [0, 0, 0]),
    ];
    for (dsv, merging) in expected {
        assert_eq!(chosen(&written, 1, dsv, &word), Some(merging), "{dsv}");
        let mirrored = chosen(&written, -1, -dsv, &word);
        assert_eq!(mirrored, Some(merging), "{dsv}");
    }
}

/// Before a header 010 and 001 would break the run rule after any word.
#[test]
fn before_a_header_only_100_and_000() {
    for word in words() {
        for merging in [[0, 1, 0], [0, 0, 1]] {
            let bits = [word.as_slice(), &merging, &SYNC_HEADER].concat();
            assert!(!keeps_the_run_rule(&bits));
        }
        assert!(!offers(word, &SYNC_HEADER).is_empty());
    }
    assert_eq!(offers(&digits("00100100100000"), &SYNC_HEADER), ["100", "000"]);
}

/// The bits from the third last ONE on: no rule looks further back.
fn end_of(bits: &[u8]) -> Vec<u8> {
    let ones: Vec<usize> = (0..bits.len()).filter(|&n| bits[n] == 1).collect();
    bits[ones[ones.len().saturating_sub(3)]..].to_vec()
}

/// From a header on, by any allowed Merging bits, to all ends that can be reached: a word or a header can always follow.
#[test]
fn there_is_always_an_allowed_choice() {
    let mut things: Vec<Vec<u8>> = words().iter().map(|word| word.to_vec()).collect();
    things.push(SYNC_HEADER.to_vec());
    let mut ends = vec![SYNC_HEADER.to_vec()];
    let mut n = 0;
    while n < ends.len() {
        let written = ends[n].clone();
        let mut following = things.clone();
        if written == SYNC_HEADER {
            following.pop();
            following.extend([SYNC_0.to_vec(), SYNC_1.to_vec()]);
        }
        for thing in following {
            assert!(!offers(&written, &thing).is_empty());
            for merging in BEFORE_A_WORD {
                if allowed(&written, merging, &thing) {
                    let end = end_of(&[&written, merging.as_slice(), &thing].concat());
                    if !ends.contains(&end) {
                        ends.push(end);
                    }
                }
            }
        }
        n += 1;
    }
    assert!(ends.len() > 100);
}
