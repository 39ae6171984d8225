//! Annexes A.3 and C.7: the codeword near a word.

use super::*;

/// `nearest` without any thought: each word that can be had by changing one byte, all its sums taken.
fn nearest_by_trial(word: &[u8], sums: usize) -> Option<Vec<u8>> {
    for place in 0..word.len() {
        for value in 0..=255 {
            let mut tried = word.to_vec();
            tried[place] = value;
            if is_codeword(&tried, sums) {
                return Some(tried);
            }
        }
    }
    None
}

#[test]
fn a_codeword_is_clean_and_one_wrong_byte_is_found() {
    let mut random = Random::new(4);
    for code in CODES {
        for _ in 0..200 {
            let word = some_codeword(&mut random, code);
            assert_eq!(verdict(&word, code.1), Verdict::Clean);
            let place = random.below(code.0);
            let mut wrong = word.clone();
            wrong[place] ^= random.change();
            assert_eq!(verdict(&wrong, code.1), Verdict::Change { place, value: word[place] });
        }
    }
}

/// Codewords of four sums differ in five places, so two or three wrong bytes are at least two away from each.
#[test]
fn two_or_three_wrong_bytes_are_lost_under_four_sums() {
    let mut random = Random::new(5);
    for code in &CODES[2..] {
        for count in [2, 3] {
            for _ in 0..200 {
                let word = some_codeword(&mut random, *code);
                assert_eq!(verdict(&damaged(&mut random, &word, count), 4), Verdict::Lost);
            }
        }
    }
}

/// Under two sums two or three wrong bytes may lie near another codeword: often enough to be met here, but not always.
#[test]
fn two_or_three_wrong_bytes_under_two_sums() {
    let mut random = Random::new(6);
    for code in &CODES[..2] {
        for count in [2, 3] {
            let mut lost = 0;
            for _ in 0..200 {
                let word = some_codeword(&mut random, *code);
                let wrong = damaged(&mut random, &word, count);
                match nearest(&wrong, 2) {
                    None => lost += 1,
                    Some(other) => {
                        assert!(
                            is_codeword(&other, 2) && other != word && changes(&other, &wrong) <= 1
                        )
                    }
                }
            }
            assert!(0 < lost && lost < 200);
        }
    }
}

#[test]
fn nearest_is_what_trial_finds() {
    let mut random = Random::new(7);
    for code in CODES {
        for count in 0..4 {
            for _ in 0..5 {
                let word = some_codeword(&mut random, code);
                let wrong = damaged(&mut random, &word, count);
                assert_eq!(nearest(&wrong, code.1), nearest_by_trial(&wrong, code.1));
            }
        }
    }
}

/// Sums (01) and α^n point to the place n before the last; from n = 26 on a P codeword has no such place.
#[test]
fn nothing_is_corrected_beyond_the_codeword() {
    for n in 0..255 {
        let mut long = vec![0; 255];
        long[254 - n] = 0x01;
        let mut word = vec![0; 26];
        word[24] = product(0x01 ^ sum(1, &long), inverse(0x03).unwrap());
        word[25] = 0x01 ^ word[24];
        assert_eq!((sum(0, &word), sum(1, &word)), (0x01, power(n)));
        match verdict(&word, 2) {
            Verdict::Change { place, value } => {
                assert!(n < 26 && place == 25 - n && value == word[place] ^ 0x01)
            }
            other => assert!(n >= 26 && other == Verdict::Lost),
        }
    }
}

#[test]
fn sums_of_which_only_one_is_0_are_lost() {
    let mut word = some_codeword(&mut Random::new(8), CODES[0]);
    word[24] ^= 0x10;
    word[25] ^= 0x10;
    assert_eq!(sum(0, &word), 0);
    assert_eq!(verdict(&word, 2), Verdict::Lost);
}

#[test]
fn lengths_at_the_edges() {
    assert_eq!(verdict(&[], 2), Verdict::Clean);
    assert_eq!(verdict(&[0], 4), Verdict::Clean);
    assert_eq!(verdict(&[9], 4), Verdict::Change { place: 0, value: 0 });
    let mut word = vec![0; 255];
    word[0] = 9;
    assert_eq!(verdict(&word, 2), Verdict::Change { place: 0, value: 0 });
    assert_eq!(verdict(&[0; 256], 2), Verdict::Lost);
}
