//! Writes an image of Sectors to standard output: the stored input of the program crates `report` (`mixed`) and `empties` (`empties`), and of
//! the folders of `tests/reports` and `tests/dumps`, each by its name. `tests/images.rs` holds them against it.

mod dumps;
mod sectors;

use second::random::Random;
use second::sector::empty;
use sectors::{address, lead_in, sector};
use std::io::Write;
use std::process::ExitCode;

/// Thirteen Sectors, clean, repaired and refused, one of them from a Lead-in Area, and a tail of three bytes.
fn mixed(random: &mut Random) -> Vec<u8> {
    let mut image = Vec::new();
    for index in 0..13 {
        let mut s = sector(random, 1, address(index));
        match index {
            1 => s[100] ^= 1,
            2 => {
                s[16] ^= 255;
                s[102] ^= 7;
            }
            4 => s[0] = 77,
            5 => s[2248..].iter_mut().for_each(|b| *b ^= 0x55),
            6 => (0..86).for_each(|k| s[12 + 86 * (k % 26) + k] ^= 0x80),
            7 => s = empty(address(index)),
            8 => s = sector(random, 2, address(index)),
            9 => s[15] = 2,
            10 => s = sector(random, 1, lead_in(index)),
            12 => {
                s[20] ^= 3;
                s[20 + 86] ^= 5;
            }
            _ => {}
        }
        image.extend(s);
    }
    image.extend([1, 2, 3]);
    image
}

/// 1,003 Sectors, every seventh with one wrong byte and every hundredth all zeros.
fn many(random: &mut Random) -> Vec<u8> {
    let clean = sector(random, 1, address(0));
    let mut image = Vec::new();
    for index in 0..1003 {
        let mut s = clean.clone();
        if index % 7 == 3 {
            s[1000] ^= 9;
        }
        if index % 100 == 50 {
            s = vec![0; 2352];
        }
        image.extend(s);
    }
    image
}

fn main() -> ExitCode {
    let mut random = Random::new(130);
    let name = std::env::args().nth(1).unwrap_or_default();
    let image = match name.as_str() {
        "mixed" => Some(mixed(&mut random)),
        "many" => Some(many(&mut random)),
        "empty" => Some(Vec::new()),
        "zeros" => Some(vec![0; 4709]),
        name => dumps::dump(name),
    };
    let Some(image) = image else {
        eprintln!("image: mixed, empties, or a name of tests/reports or tests/dumps");
        return ExitCode::FAILURE;
    };
    std::io::stdout().write_all(&image).expect("standard output");
    ExitCode::SUCCESS
}
