//! Clause 14 and document 01's order: what both programs must say of each fault, its number and the codeword that comes with it.

mod codewords;

use super::*;

/// With 13 and 14 comes the number of a codeword, with every other refusal 0.
fn refused(number: u8, codeword: usize) -> Told<4> {
    Told { number, values: [codeword as u64, 0, 0, 0] }
}

/// Mode and address, as they stand in the Sector.
fn passed(sector: &[u8]) -> Told<4> {
    Told { number: 0, values: [15, 12, 13, 14].map(|at| sector[at].into()) }
}

#[test]
fn correct_sectors_pass_with_mode_and_address() {
    let mut random = Random::new(1);
    for mode in [0, 1, 2].repeat(20) {
        let clean = sector(&mut random, mode);
        assert_eq!(clean[15], mode);
        assert_eq!(same_judged(&clean), passed(&clean));
    }
}

#[test]
fn lengths() {
    let clean = sector(&mut Random::new(2), 1);
    for length in [0, 1, 2351, 2353, 4704] {
        let mut other = clean.repeat(2);
        other.truncate(length);
        assert_eq!(same_judged(&other), refused(1, 0));
    }
}

/// A number, the codeword that comes with it, and how the fault is put in.
type Fault = (u8, usize, fn(&mut Vec<u8>));

/// Every set of these faults, which stand in document 01's order: the answer is the first of them.
fn every_set(clean: &[u8], faults: &[Fault]) {
    for set in 0..1 << faults.len() {
        let mut received = clean.to_vec();
        let mut expected = passed(clean);
        for (n, (number, codeword, put)) in faults.iter().enumerate().rev() {
            if set >> n & 1 == 1 {
                put(&mut received);
                expected = refused(*number, *codeword);
            }
        }
        assert_eq!(same_judged(&received), expected, "{set:b}");
    }
}

#[test]
fn faults_in_their_order() {
    let mut random = Random::new(3);
    let of_each_mode: [Fault; 4] = [
        (1, 0, |sector| sector.truncate(2351)),
        (10, 0, |sector| sector[0] = 1),
        (3, 0, |sector| sector[15] = 3),
        (4, 0, |sector| sector[13] = 0x60),
    ];
    let of_mode_01: [Fault; 4] = [
        (11, 0, |sector| sector[1000] ^= 1),
        (12, 0, |sector| sector[2070] = 1),
        (13, 85, |sector| sector[2247] ^= 1),
        (14, 0, |sector| sector[2300] ^= 1),
    ];
    let of_mode_00: [Fault; 1] = [(15, 0, |sector| sector[2350] = 1)];
    every_set(&sector(&mut random, 1), &[of_each_mode, of_mode_01].concat());
    every_set(&sector(&mut random, 0), &[&of_each_mode[..], &of_mode_00].concat());
    every_set(&sector(&mut random, 2), &of_each_mode);
}

/// Every mode byte that is none, and every address that document 01 has refused, in each mode.
#[test]
fn mode_bytes_and_addresses() {
    let mut random = Random::new(4);
    for mode in 0..3 {
        let clean = sector(&mut random, mode);
        for byte in 3..=255 {
            let mut wrong = clean.clone();
            wrong[15] = byte;
            assert_eq!(same_judged(&wrong), refused(3, 0), "mode {byte}");
        }
        for address in [[0x00, 0x60, 0x00], [0x00, 0x00, 0x75], [0x0A, 0x00, 0x00], [0xFA, 0, 0]] {
            let mut wrong = clean.clone();
            wrong[12..15].copy_from_slice(&address);
            assert_eq!(same_judged(&wrong), refused(4, 0), "{address:02X?}");
        }
    }
}

/// Each byte of a Sector of Mode 01 changed. From 16 on the EDC speaks first, then the Intermediate field, then the P codeword with the
/// byte in it, and for Q parity the Q codeword.
#[test]
fn every_byte_of_mode_01() {
    let mut random = Random::new(5);
    let clean = sector(&mut random, 1);
    for at in 0..LENGTH {
        for change in [0x01, 0x80, random.change()] {
            let mut wrong = clean.clone();
            wrong[at] ^= change;
            let still_an_address = address_in_range([wrong[12], wrong[13], wrong[14]]);
            let expected = match at {
                0..=11 => refused(10, 0),
                12..=14 => refused(if still_an_address { 11 } else { 4 }, 0),
                15 if wrong[15] == 0 => refused(15, 0),
                15 if wrong[15] == 2 => passed(&wrong),
                15 => refused(3, 0),
                16..=2067 => refused(11, 0),
                2068..=2075 => refused(12, 0),
                2076..=2247 => refused(13, (at - 12) / 2 % 43 + at % 2 * 43),
                _ => refused(14, (at - 2248) / 2 % 26 + at % 2 * 26),
            };
            assert_eq!(same_judged(&wrong), expected, "byte {at}");
        }
    }
}

#[test]
fn every_byte_of_modes_00_and_02() {
    let mut random = Random::new(6);
    let (empty, free) = (sector(&mut random, 0), sector(&mut random, 2));
    for at in 16..LENGTH {
        let mut wrong = empty.clone();
        wrong[at] = random.change();
        assert_eq!(same_judged(&wrong), refused(15, 0), "byte {at}");
        let mut other = free.clone();
        other[at] ^= random.change();
        assert_eq!(same_judged(&other), passed(&free), "byte {at}");
    }
}
