//! Document 01, P and Q: repair of a Mode 01 Sector.

use super::*;
use crate::codeword::nearest;

/// The only Sector that can be the one wanted: each P codeword mended, sync set, Q parity worked out afresh.
fn mended(received: &[u8]) -> Option<Vec<u8>> {
    let mut sector = received.to_vec();
    for n in 0..P_CODEWORDS {
        let positions = p_positions(n);
        let word = nearest(&take(&sector, &positions), 2)?;
        put(&mut sector, &positions, &word);
    }
    tried(&sector)
}

/// The changed count. Refusals 1, 2, 5.
pub fn repair(received: &[u8], out: &mut [u8]) -> Result<usize, Refusal> {
    clear(out, LENGTH);
    if received.len() != LENGTH {
        return Err(WrongIncoming);
    }
    if out.len() != LENGTH {
        return Err(WrongOutgoing);
    }
    let Some(sector) = mended(received) else {
        return Err(NoSectorNear);
    };
    out.copy_from_slice(&sector);
    Ok((0..LENGTH).filter(|&at| received[at] != sector[at]).count())
}

/// Document 02, 2: 1 to 16 Sectors, each as if it came alone. Refusals 1, 2, at which nothing is touched.
pub fn repair_many(
    received: &[u8],
    out: &mut [u8],
) -> Result<Vec<Result<usize, Refusal>>, Refusal> {
    let sectors = received.chunks_exact(LENGTH);
    if !sectors.remainder().is_empty() || !(1..=BATCH).contains(&sectors.len()) {
        return Err(WrongIncoming);
    }
    if out.len() != received.len() {
        return Err(WrongOutgoing);
    }
    Ok(sectors.zip(out.chunks_exact_mut(LENGTH)).map(|(one, place)| repair(one, place)).collect())
}
