//! Dumps with and without empty Sectors, which nothing proved makes any more.

use crate::sectors::{address, lead_in, sector};
use second::random::Random;
use second::sector::{empty, LENGTH};

/// An empty Sector with one byte changed.
fn spoiled(index: usize, at: usize, byte: u8) -> Vec<u8> {
    let mut out = empty(address(index));
    out[at] = byte;
    out
}

/// No empty Sector: both other modes, one of Mode 02 with nothing in it, and zeros.
fn none(random: &mut Random) -> Vec<u8> {
    let mut blank = sector(random, 2, address(2));
    blank[16..].fill(0);
    let first = sector(random, 1, address(0));
    [first, sector(random, 2, address(1)), blank, vec![0; LENGTH]].concat()
}

/// Two empty Sectors among others.
fn some(random: &mut Random) -> Vec<u8> {
    let (one, two) = (sector(random, 1, address(0)), sector(random, 2, address(3)));
    [one, empty(address(1)), empty(address(2)), two].concat()
}

fn all() -> Vec<u8> {
    [[0x00, 0x02, 0x00], [0x12, 0x34, 0x56], [0x99, 0x59, 0x74]].map(empty).concat()
}

/// Minutes of a Lead-in Area: the first, one more, the last, and the one after it, which is none.
fn of_a_lead_in() -> Vec<u8> {
    [[0xA0, 0x00, 0x00], lead_in(1), [0xF9, 0x59, 0x74], [0xFA, 0x00, 0x00]].map(empty).concat()
}

/// The first and the last filler byte wrong, and a right Sector between them.
fn wrong_filler() -> Vec<u8> {
    [spoiled(0, 16, 1), empty(address(1)), spoiled(2, LENGTH - 1, 0x80)].concat()
}

/// All but one byte of an empty Sector behind a whole one.
fn tail() -> Vec<u8> {
    let mut image = [empty(address(0)), empty(address(1))].concat();
    image.pop();
    image
}

/// Everything of the above, and other faults of an empty Sector: Sync, address, mode.
fn mixed(random: &mut Random) -> Vec<u8> {
    let parts = [
        none(random),
        some(random),
        of_a_lead_in(),
        wrong_filler(),
        spoiled(5, 0, 1),
        spoiled(6, 13, 0x60),
        spoiled(7, 15, 3),
        tail(),
    ];
    parts.concat()
}

pub fn dump(name: &str) -> Option<Vec<u8>> {
    let mut random = Random::new(13);
    match name {
        "none" => Some(none(&mut random)),
        "some" => Some(some(&mut random)),
        "all" => Some(all()),
        "lead_in" => Some(of_a_lead_in()),
        "wrong_filler" => Some(wrong_filler()),
        "tail" => Some(tail()),
        "empties" => Some(mixed(&mut random)),
        _ => None,
    }
}
