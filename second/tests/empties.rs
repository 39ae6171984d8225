//! The stored outputs of the program `empties` (that of its crate, and those in `dumps`) are what the second program says of their stored
//! input, and what the proved program prints. What the proofs leave to a run is run here: short reads, and what standard error says of a
//! tail and of what failed.

use crate::program::{at, fed, fed_slowly, program, stored, text};
use second::empties::empties;
use second::sector::{empty, LENGTH};
use std::fs::{self, File, OpenOptions};

/// No empty Sector, some, nothing but them, Lead-in addresses and one beyond them, a first and a last filler byte that is wrong.
#[test]
fn stored_dumps() {
    for name in ["none", "some", "all", "lead_in", "wrong_filler"] {
        let output = stored("empties", &format!("tests/dumps/{name}"), empties);
        assert_eq!(text(&output.stderr), "", "{name}");
    }
}

/// What would be an empty Sector with one byte more is not printed.
#[test]
fn a_tail_is_named_on_standard_error_only() {
    for folder in ["tests/dumps/tail", "../crates/empties"] {
        let output = stored("empties", folder, empties);
        assert_eq!(text(&output.stderr), "empties: tail 2351\n", "{folder}");
    }
}

#[test]
fn nothing_is_printed_of_nothing() {
    let output = fed("empties", |_| ());
    assert_eq!(text(&output.stdout), "");
    assert_eq!(text(&output.stderr), "");
}

#[test]
fn short_reads_change_nothing() {
    let image = fs::read(at("../crates/empties/stdin")).expect("stored input");
    let expected = empties(&image);
    let output = fed_slowly("empties", image);
    assert_eq!(text(&output.stdout), expected);
    assert_eq!(text(&output.stderr), "empties: tail 2351\n");
}

/// Each byte of an empty Sector wrong, one after the other: judging refuses all but other addresses that are right.
#[test]
fn every_byte_wrong() {
    let right = empty([0x12, 0x34, 0x56]);
    let mut image = Vec::new();
    for at in 0..LENGTH {
        let mut sector = right.clone();
        sector[at] ^= 1;
        image.extend(sector);
    }
    let output = fed("empties", move |pipe| pipe.write_all(&image).expect("the program reads on"));
    assert_eq!(text(&output.stdout), "133456\n123556\n123457\n");
    assert_eq!(text(&output.stderr), "");
}

#[test]
fn a_folder_cannot_be_read() {
    let folder = File::open(at("../crates")).expect("a folder opens");
    let output = program("empties").stdin(folder).output().expect("the program runs");
    assert_eq!(text(&output.stdout), "");
    assert_eq!(text(&output.stderr), "empties: standard input could not be read\n");
}

/// The first address that cannot be written ends it; a dump without one writes nothing, and nothing fails.
#[test]
fn a_full_device_cannot_be_written() {
    let said = |name: &str| {
        let full = OpenOptions::new().write(true).open("/dev/full").expect("the device opens");
        let input = File::open(at("tests/dumps").join(name).join("stdin")).expect("stored input");
        let output = program("empties").stdin(input).stdout(full).output().expect("it runs");
        text(&output.stderr).to_string()
    };
    assert_eq!(said("tail"), "empties: standard output could not be written\n");
    assert_eq!(said("none"), "");
}
