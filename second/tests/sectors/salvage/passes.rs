//! Damaged Sectors by the number of passes that they need.

use super::{same, spoil};
use crate::sectors::sector;
use second::proved;
use second::random::Random;
use second::sector::*;

/// After how many of 32 passes the proved code finds a Sector.
fn passes_needed(received: &[u8]) -> Option<u8> {
    let (mut out, mut list) = (vec![0; LENGTH], vec![0; LIST]);
    let answer = proved::salvage(received, 32, &mut out, &mut list);
    (answer.number == 0).then_some(answer.values[0] as u8)
}

/// Damaged Sectors with the allowance that is just enough and, now and then, with one that is not and with 32. How often so many passes were
/// needed; at 0, how often none of 32 gave one.
fn cases(seed: u64, count: usize, damage: impl Fn(&mut Random, &mut [u8])) -> [usize; 33] {
    let mut random = Random::new(seed);
    let mut needed = [0; 33];
    for n in 0..count {
        let clean = sector(&mut random, 1);
        let mut received = clean.clone();
        damage(&mut random, &mut received);
        match passes_needed(&received) {
            Some(k) => {
                assert_eq!(same(&received, k), Some((k, clean.clone())));
                if n % 20 == 0 {
                    assert_eq!(same(&received, 32), Some((k, clean)));
                    assert!(k == 1 || same(&received, k - 1).is_none());
                }
                needed[k as usize] += 1;
            }
            None => {
                assert_eq!(same(&received, if n % 50 == 0 { 32 } else { 1 + n as u8 % 3 }), None);
                needed[0] += 1;
            }
        }
    }
    needed
}

#[test]
fn what_repair_mends_takes_one_pass() {
    let damage = |random: &mut Random, received: &mut [u8]| {
        let words = random.below(P_CODEWORDS + 1);
        for n in random.places(words, P_CODEWORDS) {
            let at = p_positions(n)[random.below(26)];
            spoil(random, received, &[at]);
        }
    };
    let needed = cases(1, 500, damage);
    assert_eq!(needed[1], 500);
}

/// Two wrong bytes in some P codewords, which Q can mend: two passes, or a few more where P took one of them for another.
#[test]
fn two_wrong_bytes_in_some_p_codewords() {
    let damage = |random: &mut Random, received: &mut [u8]| {
        let words = 1 + random.below(4);
        for n in random.places(words, P_CODEWORDS) {
            let places: Vec<usize> =
                random.places(2, 26).iter().map(|&row| p_positions(n)[row]).collect();
            spoil(random, received, &places);
        }
    };
    let needed = cases(2, 1_500, damage);
    assert!(needed[1] == 0 && needed[2] > 1_000, "{needed:?}");
}

/// Many wrong bytes anywhere: P and Q play into each other's hands for 2, 3, 5 and more passes.
#[test]
fn passes_that_help_each_other() {
    let damage = |random: &mut Random, received: &mut [u8]| {
        let count = 30 + random.below(61);
        let places = random.places(count, LENGTH);
        spoil(random, received, &places);
    };
    let needed = cases(3, 2_000, damage);
    assert!((2..=5).all(|k| needed[k] > 0) && needed[6..].iter().sum::<usize>() > 0, "{needed:?}");
}

#[test]
fn what_no_pass_mends() {
    let damage = |random: &mut Random, received: &mut [u8]| {
        let count = 400 + random.below(400);
        let places = random.places(count, LENGTH);
        spoil(random, received, &places);
    };
    let needed = cases(4, 400, damage);
    assert_eq!(needed[0], 400);
}

/// Sectors of Modes 00 and 02 are treated as Mode 01, and are none; bytes of no order are none either.
#[test]
fn no_sectors() {
    let mut random = Random::new(5);
    for n in 0..100 {
        assert_eq!(same(&sector(&mut random, n % 2 * 2), 1 + n % 4), None);
        assert_eq!(same(&random.bytes(LENGTH), 1 + n % 2), None);
    }
}
