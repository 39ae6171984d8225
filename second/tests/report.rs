//! The stored reports (that of the program crate, and those in `reports`) are what the second program reports of their stored input, and
//! what the proved program prints. What the proofs leave to a run is run here: that the program takes what the C library reads for what it
//! is, and says on standard error what failed.

use crate::program::{at, fed, fed_slowly, program, stored, text};
use second::report::report;
use second::sector::{write, LENGTH};
use std::fs::{self, File, OpenOptions};
use std::process::Stdio;

/// Thirteen Sectors of every fate with a tail; nothing; document 01's 4,709 zeros; 1,003 Sectors.
#[test]
fn stored_reports_are_those_of_both_programs() {
    for folder in
        ["../crates/report", "tests/reports/empty", "tests/reports/zeros", "tests/reports/many"]
    {
        let output = stored("report", folder, report);
        assert_eq!(text(&output.stderr), "", "{folder}");
    }
}

#[test]
fn short_reads_change_nothing() {
    let image = fs::read(at("../crates/report/stdin")).expect("stored input");
    let expected = report(&image);
    let output = fed_slowly("report", image);
    assert_eq!(text(&output.stdout), expected);
    assert_eq!(text(&output.stderr), "");
}

/// Sectors around the sixteen that are read at once, with and without a tail.
#[test]
fn reads_of_sixteen_sectors_leave_none_out() {
    let image = fs::read(at("tests/reports/many/stdin")).expect("stored input");
    for count in [1, 2, 15, 16, 17, 31, 32, 33, 48] {
        for tail in [0, 1, LENGTH - 1] {
            let bytes = image[3 * LENGTH..][..count * LENGTH + tail].to_vec();
            let expected = report(&bytes);
            let output =
                fed("report", move |pipe| pipe.write_all(&bytes).expect("the program reads on"));
            assert_eq!(text(&output.stdout), expected);
            assert_eq!(text(&output.stderr), "");
        }
    }
}

#[test]
fn a_folder_cannot_be_read() {
    let folder = File::open(at("../crates")).expect("a folder opens");
    let output = program("report").stdin(folder).output().expect("the program runs");
    assert_eq!(text(&output.stdout), "cd sectors 1\n");
    assert_eq!(text(&output.stderr), "report: standard input could not be read\n");
}

#[test]
fn a_full_device_cannot_be_written() {
    let full = OpenOptions::new().write(true).open("/dev/full").expect("the device opens");
    let output =
        program("report").stdin(Stdio::null()).stdout(full).output().expect("the program runs");
    assert_eq!(text(&output.stderr), "report: standard output could not be written\n");
}

/// More Sectors than a disc has: 4,000 times the same hundred, of which one is repaired and one refused.
#[test]
fn every_sector_of_400_000_has_its_line() {
    let mut hundred = Vec::new();
    for frame in 0..100 {
        let mut sector = [0; LENGTH];
        let address = [0x00, 0x10 + frame / 75, frame % 75 / 10 * 16 + frame % 75 % 10];
        write(1, address, &[frame; 2048], &mut sector).expect("a Sector");
        hundred.extend_from_slice(&sector);
    }
    hundred[10 * LENGTH + 100] ^= 1;
    hundred[20 * LENGTH + 100] ^= 1;
    hundred[20 * LENGTH + 100 + 86] ^= 1;
    let expected = report(&hundred);
    let fates: Vec<String> = expected
        .lines()
        .skip(1)
        .take(100)
        .map(|line| line.split_once(' ').expect("an index").1.to_string())
        .collect();
    let output = fed("report", move |pipe| {
        for _ in 0..4_000 {
            pipe.write_all(&hundred).expect("the program reads on");
        }
    });
    let mut lines = text(&output.stdout).lines();
    assert_eq!(lines.next(), Some("cd sectors 1"));
    for index in 0..400_000 {
        assert_eq!(lines.next(), Some(format!("{index} {}", fates[index % 100]).as_str()));
    }
    assert_eq!(lines.next(), Some("clean 392000 repaired 4000 refused 4000"));
    assert_eq!(lines.next(), None);
    assert_eq!(text(&output.stderr), "");
}
