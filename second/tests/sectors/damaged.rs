//! Judging and repair of Sectors that are clean or damaged, proved against this program: 10,000 cases.

use super::{same_judged_and_repaired, sector, set_parity};
use second::random::Random;
use second::sector::{p_positions, LENGTH, P_CODEWORDS};

/// `count` times a written Sector, ten damages of each; how many were handed out.
fn cases(seed: u64, count: usize, mode: u8, damage: impl Fn(&mut Random, &mut [u8])) -> usize {
    let mut random = Random::new(seed);
    let mut handed_out = 0;
    for _ in 0..count / 10 {
        let clean = sector(&mut random, mode);
        for _ in 0..10 {
            let mut received = clean.clone();
            damage(&mut random, &mut received);
            if let Some((changed, out)) = same_judged_and_repaired(&received) {
                assert_eq!(changed, (0..LENGTH).filter(|&at| received[at] != out[at]).count());
                handed_out += 1;
            }
        }
    }
    handed_out
}

/// `wrong` wrong bytes in each of `words` P codewords.
fn spoil(random: &mut Random, received: &mut [u8], words: usize, wrong: usize) {
    for n in random.places(words, P_CODEWORDS) {
        for row in random.places(wrong, 26) {
            received[p_positions(n)[row]] ^= random.change();
        }
    }
}

#[test]
fn clean_sectors_of_mode_01() {
    assert_eq!(cases(1, 500, 1, |_, _| ()), 500);
}

#[test]
fn clean_sectors_of_the_other_modes() {
    assert_eq!(cases(2, 250, 0, |_, _| ()), 0);
    assert_eq!(cases(3, 250, 2, |_, _| ()), 0);
}

#[test]
fn a_wrong_byte_in_each_of_many_p_codewords() {
    let damage = |random: &mut Random, received: &mut [u8]| {
        let words = random.below(P_CODEWORDS + 1);
        spoil(random, received, words, 1);
    };
    assert_eq!(cases(4, 2_000, 1, damage), 2_000);
}

#[test]
fn none_one_or_two_wrong_bytes_in_each_of_many_p_codewords() {
    let damage = |random: &mut Random, received: &mut [u8]| {
        let words = random.below(40);
        spoil(random, received, words, 1);
        let words = random.below(3);
        spoil(random, received, words, 2);
    };
    let handed_out = cases(5, 2_000, 1, damage);
    assert!((500..1_500).contains(&handed_out), "{handed_out}");
}

/// A wrong Sync, with and without other faults.
#[test]
fn sync() {
    let damage = |random: &mut Random, received: &mut [u8]| {
        let count = 1 + random.below(12);
        for at in random.places(count, 12) {
            received[at] ^= random.change();
        }
        let words = random.below(3);
        spoil(random, received, words, 1);
    };
    assert_eq!(cases(6, 1_000, 1, damage), 1_000);
}

/// Wrong Q parity, of which repair takes no notice.
#[test]
fn q_parity() {
    let damage = |random: &mut Random, received: &mut [u8]| {
        let count = 1 + random.below(104);
        for at in random.places(count, 104) {
            received[2248 + at] ^= random.change();
        }
    };
    assert_eq!(cases(7, 1_000, 1, damage), 1_000);
}

/// A wrong mode byte is mended like any other, but not with another wrong byte in its P codeword.
#[test]
fn mode_byte() {
    const ITS_P_CODEWORD: usize = 43 + 1;
    let alone = |random: &mut Random, received: &mut [u8]| received[15] ^= random.change();
    assert_eq!(cases(8, 500, 1, alone), 500);
    let with_another = move |random: &mut Random, received: &mut [u8]| {
        assert_eq!(p_positions(ITS_P_CODEWORD)[0], 15);
        received[15] ^= random.change();
        received[p_positions(ITS_P_CODEWORD)[1 + random.below(25)]] ^= random.change();
    };
    assert_eq!(cases(9, 500, 1, with_another), 0);
}

/// Faults that parity cannot see, as it was worked out over them: in what EDC covers, and in the Intermediate field.
#[test]
fn faults_under_right_parity() {
    let damage = |random: &mut Random, received: &mut [u8]| {
        received[12 + random.below(2076 - 12)] ^= random.change();
        set_parity(received);
    };
    assert_eq!(cases(10, 1_000, 1, damage), 0);
}

/// Bytes of no order, and Sectors of Mode 00 with something in them.
#[test]
fn no_sectors() {
    let damage = |random: &mut Random, received: &mut [u8]| {
        let bytes = random.bytes(LENGTH);
        received.copy_from_slice(&bytes);
    };
    assert_eq!(cases(11, 500, 1, damage), 0);
    let filler = |random: &mut Random, received: &mut [u8]| {
        received[16 + random.below(2336)] ^= random.change();
    };
    assert_eq!(cases(12, 500, 0, filler), 0);
}
