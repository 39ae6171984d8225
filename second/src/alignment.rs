//! ECMA-130, clause 16; document 02, 11: Sectors with byte 0 in byte 4n of a frame.

use crate::refusal::{clear, Refusal, Refusal::*};
use crate::sector::{LENGTH, SYNC};

/// The bytes of a frame.
pub const FRAME: usize = 24;
/// The most Sectors that are written in a call, and the most frames that are searched.
pub const MOST_SECTORS: usize = 16;
pub const MOST_FRAMES: usize = 2730;
/// The outgoing bytes of a search.
pub const ROOM: usize = 63_504;

/// Where Sectors were found, and how many of them are whole.
#[derive(Clone, Copy, Debug, PartialEq, Eq)]
pub struct Found {
    pub frame: usize,
    pub n: usize,
    pub count: usize,
}

/// Whether these are 1 to `most` things of `size` bytes.
fn in_row(bytes: &[u8], size: usize, most: usize) -> bool {
    bytes.len() % size == 0 && (1..=most).contains(&(bytes.len() / size))
}

/// In each frame the bytes of each pair are exchanged.
pub fn exchange(frames: &[u8]) -> Vec<u8> {
    let mut exchanged = Vec::new();
    for frame in frames.chunks(FRAME) {
        for pair in frame.chunks(2) {
            exchanged.extend([pair[1], pair[0]]);
        }
    }
    exchanged
}

/// 1 to 16 scrambled Sectors from byte 4n of the first frame on, zeros before and behind them. A refusal touches nothing.
pub fn align(sectors: &[u8], n: usize, out: &mut [u8]) -> Result<(), Refusal> {
    if !in_row(sectors, LENGTH, MOST_SECTORS) {
        return Err(WrongIncoming);
    }
    if n > 5 {
        return Err(UnknownPlace);
    }
    let mut bytes = vec![0; 4 * n];
    bytes.extend(sectors);
    while bytes.len() % FRAME != 0 {
        bytes.push(0);
    }
    if out.len() != bytes.len() {
        return Err(WrongOutgoing);
    }
    out.copy_from_slice(&exchange(&bytes));
    Ok(())
}

/// The first place, by frame and then n, where Sync stands, and the whole Sectors from there on, still scrambled.
pub fn find(frames: &[u8], out: &mut [u8]) -> Result<Found, Refusal> {
    clear(out, ROOM);
    if !in_row(frames, FRAME, MOST_FRAMES) {
        return Err(WrongIncoming);
    }
    if out.len() != ROOM {
        return Err(WrongOutgoing);
    }
    let bytes = exchange(frames);
    for frame in 0..frames.len() / FRAME {
        for n in 0..6 {
            let rest = &bytes[FRAME * frame + 4 * n..];
            if rest.starts_with(&SYNC) {
                let sectors = rest.chunks_exact(LENGTH);
                let count = sectors.len();
                for (sector, place) in sectors.zip(out.chunks_mut(LENGTH)) {
                    place.copy_from_slice(sector);
                }
                return Ok(Found { frame, n, count });
            }
        }
    }
    Err(NoSync)
}

#[cfg(test)]
mod tests {
    use super::*;
    use crate::random::Random;
    use crate::scrambling::{cut, join};

    /// Sectors of random bytes behind their Sync.
    fn sectors(random: &mut Random, count: usize) -> Vec<u8> {
        let mut bytes = random.bytes(LENGTH * count);
        for sector in bytes.chunks_mut(LENGTH) {
            sector[..12].copy_from_slice(&SYNC);
        }
        bytes
    }

    /// Clause 16: byte 0 stands in byte 4n + 1 of an F1-frame; the filling is zeros.
    #[test]
    fn where_the_bytes_stand() {
        for n in 0..6 {
            let sector: Vec<u8> = (0..LENGTH).map(|i| 1 + (i % 255) as u8).collect();
            let mut out = vec![0xAA; if n == 0 { 2352 } else { 2376 }];
            assert_eq!(align(&sector, n, &mut out), Ok(()));
            assert_eq!(out[4 * n + 1], sector[0]);
            assert_eq!(out[4 * n], sector[1]);
            assert!(out[..4 * n].iter().chain(&out[4 * n + 2352..]).all(|&byte| byte == 0));
        }
    }

    #[test]
    fn at_nought_they_are_cut_and_joined() {
        let mut random = Random::new(1);
        let sector = sectors(&mut random, 1);
        let (mut frames, mut aligned) = (vec![0; LENGTH], vec![0; LENGTH]);
        cut(&sector, &mut frames).unwrap();
        assert_eq!(align(&sector, 0, &mut aligned), Ok(()));
        assert_eq!(frames, aligned);
        let (mut joined, mut out) = (vec![0; LENGTH], vec![0xAA; ROOM]);
        join(&frames, &mut joined).unwrap();
        assert_eq!(find(&frames, &mut out), Ok(Found { frame: 0, n: 0, count: 1 }));
        assert_eq!(out[..LENGTH], joined);
        assert!(out[LENGTH..].iter().all(|&byte| byte == 0));
    }

    #[test]
    fn numbers_and_their_order() {
        let mut old = vec![0xAA; 5];
        assert_eq!(align(&[0; 2351], 6, &mut old), Err(WrongIncoming));
        assert_eq!(align(&[0; 2352], 6, &mut old), Err(UnknownPlace));
        assert_eq!(align(&[0; 2352], 5, &mut old), Err(WrongOutgoing));
        assert_eq!(find(&[], &mut old), Err(WrongIncoming));
        assert_eq!(find(&[0; 24], &mut old), Err(WrongOutgoing));
        assert_eq!(old, [0xAA; 5]);
        let mut out = vec![0xAA; ROOM];
        assert_eq!(find(&[0; 24], &mut out), Err(NoSync));
        assert!(out.iter().all(|&byte| byte == 0));
        assert_eq!((UnknownPlace.number(), NoSync.number()), (23, 24));
    }
}
