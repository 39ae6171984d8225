//! Proved Control bytes against this program: the same answer, the same bytes and the same fields.

mod fields;
mod pressed;

use second::channel::CONTROL_BYTES;
use second::control::*;
use second::proved::{self, Told};
use second::random::Random;
use second::refusal::Refusal;

/// Both write into buffers that held (AA): number and bytes.
fn same_written(fields: &Fields, out_length: usize) -> (u8, Vec<u8>) {
    let (mut expected, mut found) = (vec![0xAA; out_length], vec![0xAA; out_length]);
    let answer = proved::number_of(write(fields, &mut expected));
    assert_eq!(proved::write_control(fields, &mut found), answer, "{fields:?}");
    assert!(found == expected, "{fields:?}");
    (answer, found)
}

fn values(fields: Fields) -> Vec<usize> {
    fields.values().into_iter().map(|n| n as usize).collect()
}

/// Both read: what this program says.
fn same_read(bytes: &[u8]) -> Result<Fields, Refusal> {
    let expected = read(bytes);
    let told: Told<11> = proved::told_of(expected, values);
    assert_eq!(proved::read_control(bytes), told, "{bytes:02X?}");
    expected
}

/// Fields that are written come back; those that are not allowed are refused with 18. Whether they were written.
fn there_and_back(fields: &Fields) -> bool {
    let (number, bytes) = same_written(fields, CONTROL_BYTES);
    if number == 0 {
        assert_eq!(same_read(&bytes), Ok(*fields));
    } else {
        assert_eq!((number, fields.allowed()), (18, false));
    }
    number == 0
}

fn digits(random: &mut Random, bound: usize) -> u8 {
    let n = random.below(bound) as u8;
    n / 10 * 16 + n % 10
}

fn time(random: &mut Random) -> ControlTime {
    ControlTime(digits(random, 100), digits(random, 60), digits(random, 75))
}

fn track(random: &mut Random) -> u8 {
    loop {
        let n = digits(random, 100);
        if n != 0 {
            return n;
        }
    }
}

/// Fields that clause 22 allows, of the seven kinds in turn.
fn allowed(random: &mut Random, kind: usize) -> Fields {
    let (relative, other) = (time(random), time(random));
    let q_data = match kind % 7 {
        0 => QData::UserData(track(random), digits(random, 100), relative, other),
        1 => QData::LeadOut(relative, other),
        2 => QData::LeadIn(Item::Track(track(random), other), relative),
        3 => QData::LeadIn(Item::FirstTrack(track(random)), relative),
        4 => QData::LeadIn(Item::LastTrack(track(random)), relative),
        5 => QData::LeadIn(Item::LeadOut(other), relative),
        _ => {
            let number = (0..13).fold(0, |n, _| n << 4 | random.below(10) as u64);
            QData::CatalogNumber(number, digits(random, 75))
        }
    };
    let flag = !matches!(q_data, QData::LeadIn(..)) && random.below(2) == 1;
    Fields { flag, copying: random.below(2) == 1, q_data }
}
