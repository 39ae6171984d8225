//! The report over 100 MB: how fast the program is that `rt run` builds.

use second::proved;
use second::random::Random;
use std::fs::File;
use std::io::{BufWriter, Write};
use std::path::Path;
use std::process::{Command, Stdio};
use std::time::Instant;

const BYTES: usize = 100_000_000;

/// Sectors of Mode 01, one in ten with some wrong bytes.
fn write_image(path: &Path) -> std::io::Result<()> {
    let mut random = Random::new(1);
    let mut image = BufWriter::new(File::create(path)?);
    for n in 0..BYTES / 2352 {
        let mut sector = [0; 2352];
        let data = [random.byte(); 2048];
        assert_eq!(proved::write(1, random.address(), &data, &mut sector), 0);
        if n % 10 == 0 {
            for _ in 0..5 {
                sector[random.below(2352)] ^= random.change();
            }
        }
        image.write_all(&sector)?;
    }
    image.flush()
}

/// Megabytes a second, the best of three runs.
fn speed(program: &Path, image: &Path) -> std::io::Result<f64> {
    let mut best = 0f64;
    for _ in 0..3 {
        let start = Instant::now();
        let input = File::open(image)?;
        let status = Command::new(program).stdin(input).stdout(Stdio::null()).status()?;
        assert!(status.success());
        best = best.max(BYTES as f64 / 1e6 / start.elapsed().as_secs_f64());
    }
    Ok(best)
}

/// Whether the program was there to be run.
pub fn print() -> bool {
    let package = Path::new(env!("CARGO_MANIFEST_DIR"));
    let program = package.join("../crates/report/out/report");
    let image = std::env::temp_dir().join(format!("sectors-{}.bin", std::process::id()));
    let measured = write_image(&image).and_then(|()| speed(&program, &image));
    let _ = std::fs::remove_file(&image);
    match &measured {
        Ok(speed) => println!("report of 100 MB: {speed:.0} MB/s"),
        Err(error) => println!("report of 100 MB: not run ({}: {error})", program.display()),
    }
    measured.is_ok()
}
