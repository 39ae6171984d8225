//! ECMA-130, clause 19.3 and Annex E; document 01, Channel bits: which Merging bits are allowed, and which are chosen.

use super::words::SYNC_HEADER;

pub type Merging = [u8; 3];

/// In the order that decides between equals.
pub const BEFORE_A_WORD: [Merging; 4] = [[1, 0, 0], [0, 1, 0], [0, 0, 1], [0, 0, 0]];
pub const BEFORE_A_HEADER: [Merging; 2] = [[1, 0, 0], [0, 0, 0]];

/// Level and DSV once these bits have been sent.
pub fn after(mut level: i64, mut dsv: i64, bits: &[u8]) -> (i64, i64) {
    for &bit in bits {
        if bit == 1 {
            level = -level;
        }
        dsv += level;
    }
    (level, dsv)
}

/// Two to ten ZEROs between one ONE and the next.
pub fn keeps_the_run_rule(bits: &[u8]) -> bool {
    let mut zeros: Option<usize> = None;
    for &bit in bits {
        if bit == 0 {
            zeros = zeros.map(|count| count + 1);
        } else {
            if zeros.is_some_and(|count| !(2..=10).contains(&count)) {
                return false;
            }
            zeros = Some(0);
        }
    }
    true
}

/// Where in the bits the 24 digits of a Sync Header begin.
pub fn headers(bits: &[u8]) -> Vec<usize> {
    let starts = 0..(bits.len() + 1).saturating_sub(24);
    starts.filter(|&start| bits[start..start + 24] == SYNC_HEADER).collect()
}

/// `written` is all that was sent before in this Section, `following` a word or the Sync Header. What these Merging bits
/// bring about ends in the new bits, so it begins at most 23 bits before them, and the rest of the history can be left out.
pub fn allowed(written: &[u8], merging: Merging, following: &[u8]) -> bool {
    let near = &written[written.len().saturating_sub(23)..];
    let bits = [near, &merging, following].concat();
    let own_place: &[usize] = if following == SYNC_HEADER { &[near.len() + 3] } else { &[] };
    keeps_the_run_rule(&bits) && headers(&bits) == own_place
}

/// The allowed Merging bits with the smallest absolute DSV after what follows; of equals the first in the order above.
pub fn chosen(written: &[u8], level: i64, dsv: i64, following: &[u8]) -> Option<Merging> {
    let offered: &[Merging] =
        if following == SYNC_HEADER { &BEFORE_A_HEADER } else { &BEFORE_A_WORD };
    let mut best: Option<(i64, Merging)> = None;
    for &merging in offered {
        if allowed(written, merging, following) {
            let (_, later) = after(level, dsv, &[&merging, following].concat());
            if best.is_none_or(|(least, _)| later.abs() < least) {
                best = Some((later.abs(), merging));
            }
        }
    }
    best.map(|(_, merging)| merging)
}
