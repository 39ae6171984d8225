//! Proved verdicts, parity and filling against this program's brute force and elimination.

use second::codeword::{agreeing, fill, verdict};
use second::proved::{self, Told};
use second::random::Random;

/// A codeword of random bytes, its parity of as many bytes as there are sums at the end.
fn codeword(random: &mut Random, length: usize, sums: usize) -> Vec<u8> {
    let mut word = random.bytes(length);
    fill(&mut word, length - sums, sums);
    word
}

fn proved_verdict(word: &[u8], sums: usize) -> Told<2> {
    match sums {
        2 => proved::verdict_of_two(word),
        _ => proved::verdict_of_four(word),
    }
}

fn same_verdict(word: &[u8], sums: usize) -> Told<2> {
    let found = proved_verdict(word, sums);
    assert_eq!(found, proved::told_verdict(verdict(word, sums)), "{sums} sums of {word:?}");
    found
}

/// 10,000 words of a length with 0, 1, 2 and 3 wrong bytes in turn. Of a hundred words each kind of verdict is met.
fn ten_thousand(seed: u64, length: usize, sums: usize) {
    let mut random = Random::new(seed);
    let mut met = [0; 3];
    for n in 0..10_000 {
        let mut word = codeword(&mut random, length, sums);
        for place in random.places(n % 4, length) {
            word[place] ^= random.change();
        }
        met[same_verdict(&word, sums).number as usize] += 1;
    }
    assert!(met.iter().all(|&times| times >= 100), "{met:?}");
}

#[test]
fn words_of_p() {
    ten_thousand(1, 26, 2);
}

#[test]
fn words_of_q() {
    ten_thousand(2, 45, 2);
}

#[test]
fn words_of_c2() {
    ten_thousand(3, 28, 4);
}

#[test]
fn words_of_c1() {
    ten_thousand(4, 32, 4);
}

/// Random words of every length to 300, where all longer than 255 are lost, and codewords of it with one wrong byte.
#[test]
fn words_of_every_length() {
    let mut random = Random::new(5);
    for length in 0..=300 {
        for sums in [2, 4] {
            same_verdict(&random.bytes(length), sums);
            same_verdict(&vec![0; length], sums);
            if length < sums {
                continue;
            }
            let mut word = codeword(&mut random, length.min(255), sums);
            word.resize(length, 0);
            word[random.below(length)] ^= random.change();
            assert_eq!(same_verdict(&word, sums).number, if length <= 255 { 1 } else { 2 });
        }
    }
}

/// Two or four bytes behind a word, whose place is set free.
#[test]
fn parity_behind_a_word() {
    let mut random = Random::new(6);
    for n in 0..2_000 {
        let data = random.bytes(n % 250);
        let filled = |count: usize| {
            let mut word = data.clone();
            word.resize(data.len() + count, 0);
            fill(&mut word, data.len(), count);
            word.split_off(data.len())
        };
        assert_eq!(proved::parity_of_two(&data)[..], filled(2));
        assert_eq!(proved::parity_at_end(&data)[..], filled(4));
    }
}

#[test]
fn parity_at_12_of_28() {
    let mut random = Random::new(7);
    for _ in 0..2_000 {
        let mut word: [u8; 28] = random.bytes(28).try_into().unwrap();
        let found = proved::parity_at_12(&word);
        fill(&mut word, 12, 4);
        assert_eq!(found, word[12..16]);
    }
}

/// What the proved code makes of a word with marks, where marks other than 0 say that a byte is lost, against elimination.
fn same_filled(word: &[u8], marks: &[u8]) -> bool {
    let marked: Vec<usize> = (0..word.len()).filter(|&place| marks[place] != 0).collect();
    let expected = if marked.len() <= 4 { agreeing(word, &marked, 4) } else { None };
    let mut found = word.to_vec();
    let filled = proved::fill(marks, &mut found);
    assert_eq!(filled, expected.is_some(), "{word:?} {marks:?}");
    assert_eq!(found, expected.unwrap_or(word.to_vec()), "{word:?} {marks:?}");
    filled
}

/// 20,000 words of a length with 0 to 6 marks of any number in random places, whose bytes are right or wrong, and with 0 to 2 wrong
/// bytes besides. Both answers are met with each number of marks up to three; four are always filled, and more never.
fn twenty_thousand(seed: u64, length: usize) {
    let mut random = Random::new(seed);
    let mut met = [[0; 2]; 7];
    for n in 0..20_000 {
        let mut word = codeword(&mut random, length, 4);
        let mut marks = vec![0; length];
        let count = n % 7;
        let wrong = random.below(3);
        let places = random.places(count + wrong, length);
        for &place in &places[..count] {
            marks[place] = random.change();
            if random.below(4) != 0 {
                word[place] = random.byte();
            }
        }
        for &place in &places[count..] {
            word[place] ^= random.change();
        }
        met[count][same_filled(&word, &marks) as usize] += 1;
    }
    assert!(met[..4].iter().all(|both| both.iter().all(|&times| times >= 100)), "{met:?}");
    assert!(met[4][0] == 0 && met[5][1] == 0 && met[6][1] == 0, "{met:?}");
}

#[test]
fn lost_bytes_of_c2() {
    twenty_thousand(8, 28);
}

#[test]
fn lost_bytes_of_c1() {
    twenty_thousand(9, 32);
}

/// Words of every length to 300, all of whose marks are random; longer than 255 they are left as they are, and so where the marks are
/// not as many as the bytes.
#[test]
fn lost_bytes_of_every_length() {
    let mut random = Random::new(10);
    for length in 4..=300 {
        let mut word = codeword(&mut random, length.min(255), 4);
        word.resize(length, 0);
        let mut marks = vec![0; length];
        let count = random.below(5);
        for place in random.places(count, length) {
            marks[place] = random.change();
            word[place] = random.byte();
        }
        if length <= 255 {
            assert!(same_filled(&word, &marks));
        }
        let mut kept = word.clone();
        if length > 255 {
            assert!(!proved::fill(&marks, &mut kept));
        }
        assert!(!proved::fill(&marks[1..], &mut kept));
        assert!(!proved::fill(&[&marks[..], &[0]].concat(), &mut kept));
        assert_eq!(kept, word);
    }
}
