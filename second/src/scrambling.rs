//! ECMA-130, clauses 15 and 16 and Annex B; document 01, Scrambling and F1-frames.

use crate::refusal::{clear, Refusal, Refusal::*};
use crate::sector::LENGTH;

/// The bytes that 12 to 2,351 of a Sector are added to, from the 15-bit register of Annex B: its lowest bit is sent, the
/// sum of the lowest two comes in at the top. The first bit sent is the least significant of a byte.
pub fn sequence() -> Vec<u8> {
    let mut register = 0b000_0000_0000_0001;
    let mut bytes = vec![0; LENGTH - 12];
    for n in 0..8 * bytes.len() {
        let sent = register & 1;
        bytes[n / 8] |= (sent as u8) << (n % 8);
        let fed_back = sent ^ (register >> 1 & 1);
        register = register >> 1 | fed_back << 14;
    }
    bytes
}

/// What all three steps have in common: refusals 1 and 2, and `at` says what each outgoing byte is.
fn step(incoming: &[u8], out: &mut [u8], at: impl Fn(usize) -> u8) -> Result<(), Refusal> {
    clear(out, LENGTH);
    if incoming.len() != LENGTH {
        return Err(WrongIncoming);
    }
    if out.len() != LENGTH {
        return Err(WrongOutgoing);
    }
    for (n, byte) in out.iter_mut().enumerate() {
        *byte = at(n);
    }
    Ok(())
}

/// Adds the sequence; done twice it undoes itself.
pub fn scramble(sector: &[u8], out: &mut [u8]) -> Result<(), Refusal> {
    let sequence = sequence();
    step(sector, out, |n| if n < 12 { sector[n] } else { sector[n] ^ sequence[n - 12] })
}

/// Byte `place` of frame `frame`, in 98 frames of 24 one after another, is the other of its pair.
fn exchanged(n: usize) -> usize {
    let (frame, place) = (n / 24, n % 24);
    24 * frame + if place % 2 == 0 { place + 1 } else { place - 1 }
}

/// 98 F1-frames of 24 bytes.
pub fn cut(scrambled: &[u8], out: &mut [u8]) -> Result<(), Refusal> {
    step(scrambled, out, |n| scrambled[exchanged(n)])
}

/// The scrambled Sector that was cut into these frames.
pub fn join(frames: &[u8], out: &mut [u8]) -> Result<(), Refusal> {
    step(frames, out, |n| frames[exchanged(n)])
}

#[cfg(test)]
mod tests {
    use super::*;
    use crate::random::Random;

    type Step = fn(&[u8], &mut [u8]) -> Result<(), Refusal>;
    const STEPS: [Step; 3] = [scramble, cut, join];

    fn done(step: Step, incoming: &[u8]) -> Vec<u8> {
        let mut out = vec![0xAA; LENGTH];
        assert_eq!(step(incoming, &mut out), Ok(()));
        out
    }

    #[test]
    fn start_of_the_sequence() {
        assert_eq!(sequence()[..8], [0x01, 0x80, 0x00, 0x60, 0x00, 0x28, 0x00, 0x1E]);
    }

    /// Document 01's rule over a list of bits: bit 0 is 1, 1 to 14 are 0, bit n+15 is bit n plus bit n+1.
    #[test]
    fn every_byte_of_the_sequence_by_the_rule_of_bits() {
        let mut bits = vec![1u8];
        bits.extend([0; 14]);
        for n in 0..8 * 2340 - 15 {
            bits.push((bits[n] + bits[n + 1]) % 2);
        }
        let bytes: Vec<u8> =
            bits.chunks(8).map(|eight| (0..8).map(|n| eight[n] << n).sum()).collect();
        assert_eq!(bytes.len(), 2340);
        assert_eq!(sequence(), bytes);
    }

    #[test]
    fn zeros_become_the_sequence_and_sync_stays() {
        let scrambled = done(scramble, &[0; LENGTH]);
        assert_eq!(scrambled[..12], [0; 12]);
        assert_eq!(scrambled[12..], sequence());
        let scrambled = done(scramble, &[0xFF; LENGTH]);
        assert_eq!(scrambled[..12], [0xFF; 12]);
        assert!(scrambled[12..].iter().zip(sequence()).all(|(x, y)| x ^ y == 0xFF));
    }

    #[test]
    fn there_and_back() {
        let mut random = Random::new(1);
        for _ in 0..20 {
            let sector = random.bytes(LENGTH);
            let scrambled = done(scramble, &sector);
            assert_ne!(scrambled, sector);
            assert_eq!(done(scramble, &scrambled), sector);
            let frames = done(cut, &scrambled);
            assert_ne!(frames, scrambled);
            assert_eq!(done(join, &frames), scrambled);
            assert_eq!(done(cut, &done(join, &sector)), sector);
        }
    }

    #[test]
    fn pairs_are_exchanged() {
        let numbers: Vec<u8> = (0..LENGTH).map(|n| n as u8).collect();
        let frames = done(cut, &numbers);
        assert_eq!(frames[..6], [1, 0, 3, 2, 5, 4]);
        assert_eq!(frames[22..26], [23, 22, 25, 24]);
        assert_eq!(frames[2350..], [2351u16 as u8, 2350u16 as u8]);
        let mut marked = vec![0; LENGTH];
        marked[0] = 0x77;
        assert_eq!(done(cut, &marked)[1], 0x77);
        assert_eq!(done(join, &marked)[1], 0x77);
    }

    #[test]
    fn lengths_and_their_order() {
        for step in STEPS {
            for length in [0, 1, 2351, 2353] {
                let mut right = vec![0xAA; LENGTH];
                assert_eq!(step(&vec![7; length], &mut right), Err(WrongIncoming));
                assert_eq!(right, [0; LENGTH]);
                let mut wrong = vec![0xAA; length];
                assert_eq!(step(&[7; LENGTH], &mut wrong), Err(WrongOutgoing));
                assert_eq!(step(&vec![7; length], &mut wrong), Err(WrongIncoming));
                assert_eq!(wrong, vec![0xAA; length]);
            }
        }
    }
}
