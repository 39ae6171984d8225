//! Running a proved program: its standard output and standard error for a file or a pipe as its standard input.

use std::fs::{self, File};
use std::io::Write;
use std::path::{Path, PathBuf};
use std::process::{Child, Command, Output, Stdio};
use std::thread;
use std::time::Duration;

/// A path from the second program's folder.
pub fn at(path: &str) -> PathBuf {
    Path::new(env!("CARGO_MANIFEST_DIR")).join(path)
}

/// The proved program with this name, which `rt run` builds.
pub fn program(name: &str) -> Command {
    let path = at("../crates").join(name).join("out").join(name);
    assert!(path.exists(), "{} is missing: run `tools/build`", path.display());
    let mut program = Command::new(path);
    program.stdout(Stdio::piped()).stderr(Stdio::piped());
    program
}

/// What the program prints of the stored input in a folder. What the second program says of it, and the folder's stored output, are the same.
pub fn stored(name: &str, folder: &str, second: fn(&[u8]) -> String) -> Output {
    let input = at(folder).join("stdin");
    let stored = fs::read_to_string(at(folder).join("stdout")).expect("stored output");
    assert!(second(&fs::read(&input).expect("stored input")) == stored, "{folder}");
    let input = File::open(&input).expect("stored input");
    let output = program(name).stdin(input).output().expect("the program runs");
    assert!(text(&output.stdout) == stored, "{folder}");
    output
}

/// What the program prints while `feed` hands it its input through a pipe.
pub fn fed(name: &str, feed: impl FnOnce(&mut dyn Write) + Send + 'static) -> Output {
    let mut child: Child = program(name).stdin(Stdio::piped()).spawn().expect("the program starts");
    let mut pipe = child.stdin.take().expect("a pipe");
    let feeder = thread::spawn(move || feed(&mut pipe));
    let output = child.wait_with_output().expect("the program ends");
    feeder.join().expect("all of the input is taken");
    output
}

/// What the program prints while it has to wait for each chunk, so that most of its reads bring less than it asks for.
pub fn fed_slowly(name: &str, image: Vec<u8>) -> Output {
    fed(name, move |pipe| {
        let mut rest = image.as_slice();
        for size in [1, 2351, 7, 2353, 588, 4703, 24].into_iter().cycle() {
            let (chunk, after) = rest.split_at(size.min(rest.len()));
            pipe.write_all(chunk).expect("the program reads on");
            thread::sleep(Duration::from_millis(3));
            rest = after;
            if rest.is_empty() {
                break;
            }
        }
    })
}

pub fn text(bytes: &[u8]) -> &str {
    std::str::from_utf8(bytes).expect("a program prints text")
}
