//! Sectors held against the proved code: both sides from buffers that held (AA), the same answer and the same bytes.

mod batches;
mod damaged;
mod judging;
mod refusals;
mod salvage;

use second::codeword::fill;
use second::edc;
use second::proved::{self, Told};
use second::random::Random;
use second::sector::*;

/// What judging says of a Sector on both sides.
fn same_judged(received: &[u8]) -> Told<4> {
    let address = |passed: Passed| {
        [passed.mode, passed.address[0], passed.address[1], passed.address[2]]
            .map(usize::from)
            .to_vec()
    };
    let told = proved::judge(received);
    assert_eq!(told, proved::told_of(judge(received), address));
    told
}

/// Judges and repairs a Sector on both sides; what repair handed out, with the changed count.
fn same_judged_and_repaired(received: &[u8]) -> Option<(usize, Vec<u8>)> {
    same_judged(received);
    same_repaired(received, LENGTH)
}

fn same_repaired(received: &[u8], out_length: usize) -> Option<(usize, Vec<u8>)> {
    let (mut expected, mut found) = (vec![0xAA; out_length], vec![0xAA; out_length]);
    let answer = repair(received, &mut expected);
    assert_eq!(proved::repair(received, &mut found), proved::told_of(answer, |count| vec![count]));
    assert!(found == expected);
    answer.ok().map(|count| (count, found))
}

fn same_written(mode: u8, address: [u8; 3], data: &[u8], out_length: usize) -> (u8, Vec<u8>) {
    let (mut expected, mut found) = (vec![0xAA; out_length], vec![0xAA; out_length]);
    let answer = proved::number_of(write(mode, address, data, &mut expected));
    assert_eq!(proved::write(mode, address, data, &mut found), answer);
    assert!(found == expected);
    (answer, found)
}

/// A correct Sector: of random data by the proved writer in Modes 01 and 02, of an old disc in Mode 00.
fn sector(random: &mut Random, mode: u8) -> Vec<u8> {
    let Some(length) = data_length(mode) else {
        return empty(random.address());
    };
    let data = random.bytes(length);
    let mut out = vec![0; LENGTH];
    assert_eq!(proved::write(mode, random.address(), &data, &mut out), 0);
    out
}

/// P and Q parity worked out afresh, over whatever stands before them.
fn set_parity(sector: &mut [u8]) {
    for positions in (0..P_CODEWORDS).map(p_positions).chain((0..Q_CODEWORDS).map(q_positions)) {
        let mut word: Vec<u8> = positions.iter().map(|&at| sector[at]).collect();
        let data = word.len() - 2;
        fill(&mut word, data, 2);
        for (&at, &byte) in positions.iter().zip(&word) {
            sector[at] = byte;
        }
    }
}

/// EDC and parity worked out afresh.
fn seal(sector: &mut [u8]) {
    let four = edc::four_bytes(&sector[..2064]);
    sector[2064..2068].copy_from_slice(&four);
    set_parity(sector);
}
