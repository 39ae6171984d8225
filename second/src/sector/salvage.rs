//! Document 02, 10: salvage with both parities.

use super::*;
use crate::codeword::nearest;

/// The length of the list: four bytes to a change, and every byte may change.
pub const LIST: usize = 4 * LENGTH;
const MOST_PASSES: u8 = 32;

/// What comes with a Sector that is handed out.
#[derive(Clone, Copy, Debug, PartialEq, Eq)]
pub struct Salvaged {
    pub passes: u8,
    pub changes: usize,
}

/// Each codeword of a parity that has a codeword near becomes it.
fn pass(bytes: &mut [u8], codewords: usize, positions: impl Fn(usize) -> Vec<usize>) {
    for n in 0..codewords {
        let positions = positions(n);
        if let Some(word) = nearest(&take(bytes, &positions), 2) {
            put(bytes, &positions, &word);
        }
    }
}

/// The first correct trial, and after how many passes: P, Q, P, ..
fn first_correct(received: &[u8], passes: u8) -> Option<(u8, Vec<u8>)> {
    let mut bytes = received.to_vec();
    (1..=passes).find_map(|k| {
        if k % 2 == 1 {
            pass(&mut bytes, P_CODEWORDS, p_positions);
        } else {
            pass(&mut bytes, Q_CODEWORDS, q_positions);
        }
        tried(&bytes).map(|sector| (k, sector))
    })
}

/// Position, byte before and byte after of each byte that differs, from the first on.
fn list_changes(before: &[u8], after: &[u8]) -> Vec<[u8; 4]> {
    let change = |at: usize| [(at / 256) as u8, (at % 256) as u8, before[at], after[at]];
    (0..LENGTH).filter(|&at| before[at] != after[at]).map(change).collect()
}

/// Refusals 1, 2, 22, 5.
pub fn salvage(
    received: &[u8],
    passes: u8,
    out: &mut [u8],
    list: &mut [u8],
) -> Result<Salvaged, Refusal> {
    clear(out, LENGTH);
    clear(list, LIST);
    if received.len() != LENGTH {
        return Err(WrongIncoming);
    }
    if out.len() != LENGTH || list.len() != LIST {
        return Err(WrongOutgoing);
    }
    if !(1..=MOST_PASSES).contains(&passes) {
        return Err(WrongPasses);
    }
    let Some((passes, sector)) = first_correct(received, passes) else {
        return Err(NoSectorNear);
    };
    out.copy_from_slice(&sector);
    let changes = list_changes(received, &sector);
    for (n, change) in changes.iter().enumerate() {
        list[4 * n..4 * n + 4].copy_from_slice(change);
    }
    Ok(Salvaged { passes, changes: changes.len() })
}
