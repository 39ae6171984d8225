//! The benchmark: the time of each work as a ratio to the unit, one pass of a byte-table CRC-32 over 2,352 bytes, in the
//! same run. A round times the unit and every work once, so that a slow spell meets all of them; of each the least time counts, which other
//! programs on the machine disturb least.
//! With the argument `--strict` it fails where a work takes more than it may, or where the report was not run.

mod report;
mod works;

use std::process::ExitCode;
use std::time::{Duration, Instant};

const ROUNDS: usize = 31;
const ROUND_TIME: Duration = Duration::from_millis(2);

/// CRC-32 with the reflected polynomial (EDB88320), one look-up a byte.
struct Crc([u32; 256]);

impl Crc {
    fn new() -> Crc {
        let mut table = [0; 256];
        for (byte, entry) in table.iter_mut().enumerate() {
            let mut register = byte as u32;
            for _ in 0..8 {
                let low = register & 1;
                register >>= 1;
                if low == 1 {
                    register ^= 0xEDB8_8320;
                }
            }
            *entry = register;
        }
        Crc(table)
    }

    fn pass(&self, bytes: &[u8]) -> u32 {
        let mut register = !0;
        for &byte in bytes {
            register = register >> 8 ^ self.0[(register as u8 ^ byte) as usize];
        }
        !register
    }
}

struct Work {
    name: &'static str,
    /// The most units that it may take.
    most: f64,
    once: Box<dyn FnMut()>,
    /// How many times it is done in a round.
    passes: u32,
    /// Seconds that one pass took in the fastest round.
    least: f64,
}

impl Work {
    fn new(name: &'static str, most: f64, once: impl FnMut() + 'static) -> Work {
        let mut work = Work { name, most, once: Box::new(once), passes: 1, least: f64::INFINITY };
        while work.time_passes() < ROUND_TIME {
            work.passes *= 2;
        }
        work
    }

    fn time_passes(&mut self) -> Duration {
        let start = Instant::now();
        for _ in 0..self.passes {
            (self.once)();
        }
        start.elapsed()
    }

    fn round(&mut self) {
        let time = self.time_passes().as_secs_f64() / self.passes as f64;
        self.least = self.least.min(time);
    }
}

/// Whether no work takes more than it may.
fn print(works: &[Work]) -> bool {
    let unit = works[0].least;
    println!("one unit is {:.2} µs, the least of {ROUNDS} rounds", unit * 1e6);
    println!("{:>8} {:>8}  work", "units", "at most");
    let mut kept = true;
    for work in works {
        let units = work.least / unit;
        let slow = units > work.most;
        let remark = if slow { ": too slow" } else { "" };
        println!("{units:>8.2} {:>8.2}  {}{remark}", work.most, work.name);
        kept &= !slow;
    }
    kept
}

fn main() -> ExitCode {
    let strict = std::env::args().any(|argument| argument == "--strict");
    let mut works = works::works();
    for _ in 0..ROUNDS {
        works.iter_mut().for_each(Work::round);
    }
    let kept = print(&works);
    let run = report::print();
    if strict && !(kept && run) {
        return ExitCode::FAILURE;
    }
    ExitCode::SUCCESS
}

#[cfg(test)]
mod tests {
    use super::*;

    /// The published check value of CRC-32.
    #[test]
    fn check_value() {
        assert_eq!(Crc::new().pass(b"123456789"), 0xCBF4_3926);
    }
}
