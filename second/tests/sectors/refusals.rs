//! Writing Sectors, and refusals 1 to 4 of writing, judging and repair, proved against this program.

use super::*;

#[test]
fn written() {
    let mut random = Random::new(1);
    for n in 0..1_500 {
        let mode = 1 + (n % 2) as u8;
        let data = random.bytes(data_length(mode).unwrap());
        let address = random.address();
        let (answer, sector) = same_written(mode, address, &data, LENGTH);
        assert_eq!(answer, 0);
        assert_eq!(judge(&sector), Ok(Passed { mode, address }));
    }
}

/// Document 02, 13: Mode 00 is refused in writing, whatever comes with it, and judged as ever.
#[test]
fn empty_sectors() {
    let mut random = Random::new(5);
    for length in [0, 1, 2048, 2336] {
        for address in [random.address(), [0xFF; 3]] {
            let written = same_written(0, address, &vec![0; length], LENGTH);
            assert_eq!(written, (3, vec![0; LENGTH]));
        }
    }
    for _ in 0..100 {
        let [minute, second, frame] = random.address();
        let mut old = empty([minute, second, frame]);
        let told = proved::judge(&old);
        assert_eq!((told.number, told.values), (0, [0, minute, second, frame].map(u64::from)));
        old[16 + random.below(2336)] = random.change();
        assert_eq!(proved::judge(&old).number, 15);
    }
}

#[test]
fn every_mode_and_any_address() {
    let mut random = Random::new(2);
    for mode in 0..=255 {
        for length in [0, 2048, 2336, 100] {
            let address = [random.byte(), random.byte(), random.byte()];
            same_written(mode, address, &random.bytes(length), LENGTH);
            same_written(mode, random.address(), &random.bytes(length), LENGTH);
        }
    }
}

/// An address is accepted or refused by writing, judging and repair alike.
fn by_all_three(address: [u8; 3], accepted: bool) {
    let data = [0x5A; 2048];
    assert_eq!(same_written(1, address, &data, LENGTH).0, if accepted { 0 } else { 4 });
    let (_, mut sector) = same_written(1, [0x99, 0x59, 0x74], &data, LENGTH);
    sector[12..15].copy_from_slice(&address);
    seal(&mut sector);
    assert_eq!(same_judged(&sector).number, if accepted { 0 } else { 4 });
    assert_eq!(same_repaired(&sector, LENGTH).is_some(), accepted);
}

/// Document 01, Figures to meet, as document 02 §1 amends them: each of these alone.
#[test]
fn addresses() {
    for accepted in [[0x99, 0x59, 0x74], [0xA0, 0x00, 0x00], [0xF9, 0x59, 0x74]] {
        by_all_three(accepted, true);
    }
    for refused in [[0x00, 0x60, 0x00], [0x00, 0x00, 0x75], [0x0A, 0x00, 0x00], [0xA0, 0x60, 0x00]]
    {
        by_all_three(refused, false);
    }
}

/// Every minute byte: 00 to 99, and (A0) added to 00 to 59.
#[test]
fn every_minute() {
    let printed = |n: u32| u8::from_str_radix(&format!("{n:02}"), 16).unwrap();
    let right: Vec<u8> = (0..100).map(printed).chain((0..60).map(|n| printed(n) + 0xA0)).collect();
    for minute in 0..=255 {
        by_all_three([minute, 0x02, 0x10], right.contains(&minute));
    }
}

/// Every value of each byte of the address.
#[test]
fn every_byte_of_an_address() {
    let mut random = Random::new(3);
    let clean = sector(&mut random, 2);
    for at in 0..3 {
        for byte in 0..=255 {
            let mut address = [0x12, 0x34, 0x56];
            address[at] = byte;
            same_written(2, address, &[0x5A; 2336], LENGTH);
            same_judged_and_repaired(&empty(address));
            let mut received = clean.clone();
            received[12 + at] = byte;
            same_judged_and_repaired(&received);
        }
    }
}

/// Every set of the writer's four faults, with Mode 00 and with a mode that is none: the first in the order 2, 3, 1, 4 is the answer.
#[test]
fn order_of_the_writer() {
    for wrong_mode in [0, 3] {
        for set in 1..16 {
            let has = |fault: usize| set >> fault & 1 == 1;
            let out_length = if has(0) { 2351 } else { 2352 };
            let mode = if has(1) { wrong_mode } else { 1 };
            let data = vec![7; if has(2) { 2047 } else { 2048 }];
            let address = if has(3) { [0x00, 0x60, 0x00] } else { [0x12, 0x34, 0x56] };
            let first = (0..4).find(|&fault| has(fault)).expect("a fault");
            let left = vec![if has(0) { 0xAA } else { 0x00 }; out_length];
            let written = same_written(mode, address, &data, out_length);
            assert_eq!(written, ([2, 3, 1, 4][first], left), "{set:b}");
        }
    }
}

/// Every set of the faults of repair: the first in the order 1, 2, 5.
#[test]
fn order_of_repair() {
    let clean = sector(&mut Random::new(6), 1);
    for set in 1..8 {
        let has = |fault: usize| set >> fault & 1 == 1;
        let mut received = if has(2) { vec![0; LENGTH] } else { clean.clone() };
        received.truncate(if has(0) { 2351 } else { 2352 });
        let out_length = if has(1) { 2353 } else { 2352 };
        let first = (0..3).find(|&fault| has(fault)).expect("a fault");
        assert_eq!(same_repaired(&received, out_length), None);
        let mut out = vec![0xAA; out_length];
        let told = proved::repair(&received, &mut out);
        assert_eq!(told, Told { number: [1, 2, 5][first], values: [0] }, "{set:b}");
        assert_eq!(out, vec![if has(1) { 0xAA } else { 0x00 }; out_length]);
    }
}

/// Incoming and outgoing buffers of every length from 0 to 2,353.
#[test]
fn every_length() {
    let mut random = Random::new(4);
    let whole = sector(&mut random, 1);
    let long = [whole.as_slice(), &[0]].concat();
    let address = random.address();
    for length in 0..=2_353 {
        if length != LENGTH {
            assert_eq!(same_judged_and_repaired(&long[..length]), None);
            assert_eq!(same_repaired(&whole, length), None);
            assert_eq!(same_repaired(&long[..length], length), None);
        }
        for mode in [0, 1, 2, 3] {
            let data = &long[..data_length(mode).unwrap_or(0)];
            if length != LENGTH {
                same_written(mode, address, data, length);
                same_written(mode, [0xFF; 3], &long[..length], length);
            }
            if Some(length) != data_length(mode) {
                same_written(mode, address, &long[..length], LENGTH);
            }
        }
    }
}
