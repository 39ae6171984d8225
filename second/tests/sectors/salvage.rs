//! Salvage (document 02, 10): more than 5,000 cases in all, the same answer, Sector and list on both sides.

mod passes;

use super::sector;
use second::proved;
use second::random::Random;
use second::sector::*;

fn told(answer: Salvaged) -> Vec<usize> {
    vec![answer.passes as usize, answer.changes]
}

/// Salvages on both sides; what was handed out, with the passes used.
fn same(received: &[u8], passes: u8) -> Option<(u8, Vec<u8>)> {
    let (mut expected, mut found) = (vec![0xAA; LENGTH], vec![0xAA; LENGTH]);
    let (mut expected_list, mut list) = (vec![0xAA; LIST], vec![0xAA; LIST]);
    let answer = salvage(received, passes, &mut expected, &mut expected_list);
    let told = proved::told_of(answer, told);
    assert_eq!(proved::salvage(received, passes, &mut found, &mut list), told);
    assert!(found == expected && list == expected_list);
    let answer = answer.ok()?;
    let mut made = received.to_vec();
    for change in list.chunks(4).take(answer.changes) {
        let at = change[0] as usize * 256 + change[1] as usize;
        assert_eq!(made[at], change[2]);
        made[at] = change[3];
    }
    assert!(made == found);
    Some((answer.passes, found))
}

fn spoil(random: &mut Random, received: &mut [u8], places: &[usize]) {
    for &at in places {
        received[at] ^= random.change();
    }
}

/// Every allowance that a byte can say: 1 to 32 are taken, 0 and 33 to 255 refused with 22.
#[test]
fn every_allowance() {
    let mut random = Random::new(6);
    let clean = sector(&mut random, 1);
    for passes in 0..=255 {
        let taken = (1..=32).contains(&passes);
        assert_eq!(same(&clean, passes), taken.then(|| (1, clean.clone())));
        let (mut out, mut list) = (vec![0xAA; LENGTH], vec![0xAA; LIST]);
        let number = proved::salvage(&clean, passes, &mut out, &mut list).number;
        assert_eq!(number, if taken { 0 } else { 22 });
    }
}

/// Buffers of wrong lengths in every combination: 1 before 2 before 22, and what each then holds.
#[test]
fn lengths() {
    let mut random = Random::new(7);
    let long = [sector(&mut random, 1), vec![0; LENGTH]].concat();
    for length in [0, 1, 2351, 2352, 2353, 2 * LENGTH] {
        for out_length in [0, 1, 2351, 2352, 2353, 9408] {
            for list_length in [0, 1, 2352, 9407, 9408, 9409] {
                for passes in [0, 1, 33] {
                    let mut expected = (vec![0xAA; out_length], vec![0xAA; list_length]);
                    let mut found = expected.clone();
                    let received = &long[..length];
                    let answer = salvage(received, passes, &mut expected.0, &mut expected.1);
                    let told = proved::told_of(answer, told);
                    let answer = proved::salvage(received, passes, &mut found.0, &mut found.1);
                    assert_eq!(answer, told);
                    assert!(found == expected);
                }
            }
        }
    }
}

/// With one pass the answer is repair's, and a larger allowance never alters a result already given.
#[test]
fn one_pass_and_more() {
    let mut random = Random::new(8);
    let mut results = 0;
    for _ in 0..100 {
        let mut received = sector(&mut random, 1);
        let count = random.below(60);
        let places = random.places(count, LENGTH);
        spoil(&mut random, &mut received, &places);
        let mut given = None;
        for passes in [1, 2, 3, 4, 8, 32] {
            let (mut out, mut list) = (vec![0xAA; LENGTH], vec![0xAA; LIST]);
            let answer = proved::salvage(&received, passes, &mut out, &mut list);
            if passes == 1 {
                let mut repaired = vec![0xAA; LENGTH];
                let repair = proved::repair(&received, &mut repaired);
                assert_eq!((repair.number, repair.values[0]), (answer.number, answer.values[1]));
                assert!(repaired == out);
            }
            match &given {
                Some(before) => assert!(*before == (answer, out, list)),
                None if answer.number == 0 => given = Some((answer, out, list)),
                None => assert_eq!(answer.number, 5),
            }
        }
        results += given.is_some() as usize;
    }
    assert!(results > 30, "{results}");
}
