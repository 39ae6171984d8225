//! Every stored input is what the program `image` writes.

use crate::program::at;
use std::fs;
use std::path::Path;
use std::process::{Command, Output};

fn image(name: &str) -> Output {
    Command::new(env!("CARGO_BIN_EXE_image")).arg(name).output().expect("the program runs")
}

/// The stored input of a folder is the image with this name.
fn same(folder: &Path, name: &str) {
    let output = image(name);
    assert!(output.status.success(), "{name}");
    let stored = fs::read(folder.join("stdin")).expect("stored input");
    assert!(output.stdout == stored, "{}", folder.display());
}

#[test]
fn inputs_of_the_program_crates() {
    same(&at("../crates/report"), "mixed");
    same(&at("../crates/empties"), "empties");
}

/// Each folder by its name.
#[test]
fn inputs_of_the_tests() {
    for (folders, count) in [("tests/reports", 3), ("tests/dumps", 6)] {
        let entries = fs::read_dir(at(folders)).expect("the folder of the tests");
        let paths: Vec<_> = entries.map(|entry| entry.expect("a stored folder").path()).collect();
        assert_eq!(paths.len(), count);
        for path in paths {
            let name = path.file_name().and_then(|name| name.to_str()).expect("a name");
            same(&path, name);
        }
    }
}

#[test]
fn other_names_are_refused() {
    for name in ["", "report", "Many"] {
        let output = image(name);
        assert!(!output.status.success() && output.stdout.is_empty(), "{name}");
    }
}
