//! Document 02, 5: edge captures, kept as lists of runs and replayed into Channel Frames.

use crate::channel::{pack, words::SYNC_HEADER};
use crate::refusal::{clear, Refusal, Refusal::*};

/// The longest capture and the longest list, which are also the lengths of the outgoing buffers.
pub const CAPTURE: usize = 65_536;
pub const LIST: usize = 98_304;
const EDGES: usize = 32_768;
const FRAME_BITS: usize = 588;

fn counts(capture: &[u8]) -> Result<Vec<u16>, Refusal> {
    if capture.len() % 2 == 1 || capture.len() > CAPTURE {
        return Err(WrongIncoming);
    }
    Ok(capture.chunks(2).map(|two| u16::from_be_bytes([two[0], two[1]])).collect())
}

/// The distances of successive edges.
fn distances(counts: &[u16]) -> Vec<u16> {
    counts.windows(2).map(|two| two[1].wrapping_sub(two[0])).collect()
}

fn groups(mut number: u16) -> Vec<u8> {
    let mut bytes = Vec::new();
    while number > 127 {
        bytes.push(number as u8 | 128);
        number >>= 7;
    }
    bytes.push(number as u8);
    bytes
}

/// The new bytes in front of zeros; the answer is how many they are.
fn fill(new: &[u8], out: &mut [u8]) -> usize {
    out[..new.len()].copy_from_slice(new);
    new.len()
}

/// Refusals 1, 2. The used length comes back.
pub fn runs_of(capture: &[u8], list: &mut [u8]) -> Result<usize, Refusal> {
    clear(list, LIST);
    let counts = counts(capture)?;
    if list.len() != LIST {
        return Err(WrongOutgoing);
    }
    let numbers = counts.iter().take(1).copied().chain(distances(&counts));
    Ok(fill(&numbers.flat_map(groups).collect::<Vec<u8>>(), list))
}

/// The numbers of a list, or none if one of them is malformed or too many.
fn numbers(mut list: &[u8]) -> Option<Vec<u16>> {
    let mut numbers = Vec::new();
    while !list.is_empty() {
        let last = list.iter().position(|byte| *byte < 128)?;
        let number = list[..=last].iter().rev().try_fold(0u64, |high, byte| {
            high.checked_mul(128).map(|high| high + u64::from(byte % 128))
        })?;
        let number = u16::try_from(number).ok()?;
        if groups(number) != list[..=last] || numbers.len() == EDGES {
            return None;
        }
        numbers.push(number);
        list = &list[last + 1..];
    }
    Some(numbers)
}

/// Refusals 1, 2, 19. The used length comes back.
pub fn capture_of(list: &[u8], capture: &mut [u8]) -> Result<usize, Refusal> {
    clear(capture, CAPTURE);
    if list.len() > LIST {
        return Err(WrongIncoming);
    }
    if capture.len() != CAPTURE {
        return Err(WrongOutgoing);
    }
    let numbers = numbers(list).ok_or(WrongNumber)?;
    let counts = numbers.iter().scan(0u16, |count, number| {
        *count = count.wrapping_add(*number);
        Some(*count)
    });
    Ok(fill(&counts.flat_map(u16::to_be_bytes).collect::<Vec<u8>>(), capture))
}

/// How many bytes are used, and how many frames they are.
#[derive(Clone, Copy, Debug, PartialEq, Eq)]
pub struct Replayed {
    pub used: usize,
    pub frames: usize,
}

/// Refusals 1, 2, 20, 21.
pub fn replay(capture: &[u8], out: &mut [u8]) -> Result<Replayed, Refusal> {
    clear(out, CAPTURE);
    let counts = counts(capture)?;
    if out.len() != CAPTURE {
        return Err(WrongOutgoing);
    }
    let runs: Vec<usize> = distances(&counts).iter().map(|d| (usize::from(*d) + 4) / 8).collect();
    if let Some(run) = runs.iter().position(|bits| !(3..=11).contains(bits)) {
        return Err(IllegalRun { run });
    }
    let mut bits = Vec::new();
    for run in runs {
        bits.push(1);
        bits.extend(vec![0; run - 1]);
    }
    bits.extend(counts.last().map(|_| 1));
    let header = bits.windows(SYNC_HEADER.len()).position(|bits| *bits == SYNC_HEADER);
    let bits = &bits[header.ok_or(NoHeader)?..];
    let frames = bits.len() / FRAME_BITS;
    let mut whole = bits[..frames * FRAME_BITS].to_vec();
    whole.resize(whole.len().next_multiple_of(8), 0);
    Ok(Replayed { used: fill(&pack(&whole), out), frames })
}

#[cfg(test)]
mod tests {
    use super::*;

    fn capture(counts: &[u16]) -> Vec<u8> {
        counts.iter().flat_map(|count| count.to_be_bytes()).collect()
    }

    fn list(capture: &[u8]) -> Vec<u8> {
        let mut out = vec![1; LIST];
        let used = runs_of(capture, &mut out).unwrap();
        assert!(out[used..].iter().all(|byte| *byte == 0));
        out[..used].to_vec()
    }

    #[test]
    fn lists_by_hand() {
        assert_eq!(list(&[]), []);
        assert_eq!(list(&capture(&[300])), [0b1010_1100, 2]);
        assert_eq!(list(&capture(&[65_535, 19, 19])), [255, 255, 3, 20, 0]);
    }

    #[test]
    fn every_number_comes_back() {
        for first in [0, 32_768] {
            let mut counts: Vec<u16> = (0..32_768).map(|n| n + first).collect();
            for i in 1..counts.len() {
                counts[i] = counts[i].wrapping_add(counts[i - 1]);
            }
            let given = capture(&counts);
            let mut out = vec![1; CAPTURE];
            assert_eq!(capture_of(&list(&given), &mut out), Ok(CAPTURE));
            assert_eq!(out, given);
        }
    }

    #[test]
    fn malformed_numbers() {
        let mut out = vec![1; CAPTURE];
        for list in [
            &[128][..],
            &[128, 0],
            &[255, 128],
            &[128, 128, 0],
            &[128, 128, 4],
            &[128, 128, 128, 1],
        ] {
            assert_eq!(capture_of(list, &mut out), Err(WrongNumber), "{list:?}");
        }
        assert_eq!(capture_of(&[0; EDGES], &mut out), Ok(CAPTURE));
        assert_eq!(capture_of(&[0; EDGES + 1], &mut out), Err(WrongNumber));
    }

    #[test]
    fn replays_by_hand() {
        let mut out = vec![1; CAPTURE];
        assert_eq!(replay(&capture(&[7]), &mut out), Err(NoHeader));
        assert_eq!(replay(&capture(&[0, 88, 176]), &mut out), Err(NoHeader));
        assert_eq!(
            replay(&capture(&[0, 88, 176, 200]), &mut out),
            Ok(Replayed { used: 0, frames: 0 })
        );
        assert_eq!(replay(&capture(&[0, 88, 180, 195]), &mut out), Err(IllegalRun { run: 1 }));
    }
}
