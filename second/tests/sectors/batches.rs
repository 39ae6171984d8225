//! Batches of 1 to 16 Sectors (document 02, 2): the proved batch against the proved single calls and against this program's batch.

use super::{sector, set_parity};
use second::proved::{self, Told};
use second::random::Random;
use second::sector::*;

/// A Sector of any fate: clean, repaired with few and with many changes, or refused, for six kinds of reason.
fn some_sector(random: &mut Random) -> Vec<u8> {
    let kind = random.below(10);
    let mode = match kind {
        0 => 0,
        1 => 2,
        _ => 1,
    };
    let mut received = sector(random, mode);
    match kind {
        2 => received = random.bytes(LENGTH),
        3 => received.fill(0),
        4 => {
            let word = p_positions(random.below(P_CODEWORDS));
            for row in random.places(2, 26) {
                received[word[row]] ^= random.change();
            }
        }
        5 => {
            received[12 + random.below(2064)] ^= random.change();
            set_parity(&mut received);
        }
        6 => received[random.below(LENGTH)] ^= random.change(),
        7 => {
            received[..12].copy_from_slice(&random.bytes(12));
            received[2248..].copy_from_slice(&random.bytes(104));
            for n in 0..P_CODEWORDS {
                received[p_positions(n)[random.below(26)]] ^= random.change();
            }
        }
        _ => {}
    }
    received
}

fn some_sectors(random: &mut Random, count: usize) -> Vec<u8> {
    (0..count).flat_map(|_| some_sector(random)).collect()
}

/// The same batch by the proved code, by single calls of it and by this program, into buffers that held what stands in `old`; the fates.
fn same_batch(received: &[u8], old: &[u8]) -> Vec<Told<1>> {
    let count = received.len() / LENGTH;
    let mut found = old.to_vec();
    let batch = proved::repair_many(received, &mut found);
    let mut expected = old.to_vec();
    assert_eq!(batch, proved::told_batch(repair_many(received, &mut expected)));
    assert!(found == expected);
    assert_eq!(batch.answer, Told { number: 0, values: [count as u64] });

    let mut singly = old.to_vec();
    let calls = received.chunks(LENGTH).zip(singly.chunks_mut(LENGTH));
    let fates: Vec<Told<1>> = calls.map(|(one, place)| proved::repair(one, place)).collect();
    assert!(found == singly);
    assert_eq!(batch.fates[..count], fates);
    assert_eq!(batch.fates[count..], vec![Told { number: 1, values: [0] }; BATCH - count]);
    for (fate, place) in fates.iter().zip(found.chunks(LENGTH)) {
        assert_eq!(fate.number == 5, place == [0; LENGTH]);
    }
    fates
}

/// 2,000 batches, as many of each size, with every kind of fate among them.
#[test]
fn batches_are_the_single_calls() {
    let mut random = Random::new(1);
    let (mut clean, mut repaired, mut refused, mut mixed) = (0, 0, 0, 0);
    for n in 0..2_000 {
        let received = some_sectors(&mut random, 1 + n % BATCH);
        let old = random.bytes(received.len());
        let fates = same_batch(&received, &old);
        let [c, r, f] = [
            fates.iter().filter(|f| f.number == 0 && f.values == [0]).count(),
            fates.iter().filter(|f| f.number == 0 && f.values != [0]).count(),
            fates.iter().filter(|f| f.number == 5).count(),
        ];
        assert_eq!(c + r + f, fates.len());
        (clean, repaired, refused) = (clean + c, repaired + r, refused + f);
        mixed += usize::from(c > 0 && r > 0 && f > 0);
    }
    assert_eq!(clean + repaired + refused, 125 * (1..=BATCH).sum::<usize>());
    assert!(
        [clean, repaired, refused].iter().all(|&fates| fates > 3_000),
        "{clean} {repaired} {refused}"
    );
    assert!(mixed > 1_000, "{mixed}");
}

/// A Sector that is lost costs its own place and no other, wherever it stands.
#[test]
fn a_lost_sector_disturbs_no_other() {
    let mut random = Random::new(2);
    let received = some_sectors(&mut random, BATCH);
    let old = random.bytes(received.len());
    let mut whole = old.clone();
    let before = proved::repair_many(&received, &mut whole);
    for lost in 0..BATCH {
        let mut scratched = received.clone();
        scratched[lost * LENGTH..][..LENGTH].fill(0x55);
        let mut found = old.clone();
        let batch = proved::repair_many(&scratched, &mut found);
        for n in 0..BATCH {
            let place = n * LENGTH..(n + 1) * LENGTH;
            if n == lost {
                assert_eq!(batch.fates[n], Told { number: 5, values: [0] });
                assert_eq!(found[place], [0; LENGTH]);
            } else {
                assert_eq!(batch.fates[n], before.fates[n]);
                assert!(found[place.clone()] == whole[place]);
            }
        }
    }
}

/// A refusal gives no fates and touches nothing, whatever the outgoing length is.
fn refused(received: &[u8], out_length: usize, number: u8) {
    let old = vec![0xAA; out_length];
    let (mut found, mut expected) = (old.clone(), old.clone());
    let batch = proved::repair_many(received, &mut found);
    assert_eq!(batch, proved::told_batch(repair_many(received, &mut expected)));
    assert_eq!(batch.answer, Told { number, values: [0] });
    assert_eq!(batch.fates, [Told { number: 1, values: [0] }; BATCH]);
    assert!(found == old && expected == old);
}

/// Refusal 1 goes before 2, so no outgoing length is right with it: neither the same length, nor one Sector, nor sixteen.
#[test]
fn wrong_incoming_lengths() {
    let long = vec![0x55; 18 * LENGTH];
    for length in
        [0, 1, LENGTH - 1, LENGTH + 1, 16 * LENGTH - 1, 16 * LENGTH + 1, 17 * LENGTH, 18 * LENGTH]
    {
        for out_length in
            [0, 1, length, LENGTH, length / LENGTH * LENGTH, 15 * LENGTH, 16 * LENGTH, 17 * LENGTH]
        {
            refused(&long[..length], out_length, 1);
        }
    }
}

/// Outgoing lengths one byte off, one Sector off, and far off, for every number of Sectors.
#[test]
fn wrong_outgoing_lengths() {
    let mut random = Random::new(3);
    let received = some_sectors(&mut random, BATCH);
    for count in 1..=BATCH {
        let length = count * LENGTH;
        for out_length in [length - 1, length + 1, length - LENGTH, length + LENGTH, 0, 18 * LENGTH]
        {
            refused(&received[..length], out_length, 2);
        }
    }
}
