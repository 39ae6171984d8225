//! Sectors of an image, in order.

use second::random::Random;
use second::sector::write;

/// A number below 100 as two decimal digits in a byte.
fn digits(n: usize) -> u8 {
    (n / 10 * 16 + n % 10) as u8
}

/// The address of the Sector with this index, two seconds into the disc.
pub fn address(index: usize) -> [u8; 3] {
    let frames = index + 150;
    [digits(frames / 75 / 60), digits(frames / 75 % 60), digits(frames % 75)]
}

/// The same in a Lead-in Area, where (A0) is added to the minute.
pub fn lead_in(index: usize) -> [u8; 3] {
    let [minute, second, frame] = address(index);
    [minute + 0xA0, second, frame]
}

/// A Sector of Mode 01 or 02 with random data.
pub fn sector(random: &mut Random, mode: u8, address: [u8; 3]) -> Vec<u8> {
    let data = random.bytes(if mode == 1 { 2048 } else { 2336 });
    let mut out = vec![0; 2352];
    write(mode, address, &data, &mut out).expect("a Sector that can be written");
    out
}
