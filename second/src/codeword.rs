//! ECMA-130, Annexes A.3 and C.7; document 02, 7: the check sums of a codeword, the codeword near a word, the one that agrees
//! with a word but for lost bytes, and parity.

use crate::field::{inverse, power, product};

/// What the byte at `place` of a word of `length` bytes is multiplied by in sum `j`: α^(j(k-1-i)).
pub fn weight(j: usize, place: usize, length: usize) -> u8 {
    power(j * (length - 1 - place))
}

pub fn sum(j: usize, word: &[u8]) -> u8 {
    let mut sum = 0;
    for (place, &byte) in word.iter().enumerate() {
        sum ^= product(byte, weight(j, place, word.len()));
    }
    sum
}

/// Sums 0 to `sums` - 1 are all 0.
pub fn is_codeword(word: &[u8], sums: usize) -> bool {
    (0..sums).all(|j| sum(j, word) == 0)
}

#[derive(Clone, Copy, Debug, PartialEq, Eq)]
pub enum Verdict {
    /// The word is a codeword.
    Clean,
    /// It becomes one if the byte at `place` becomes `value`.
    Change { place: usize, value: u8 },
    /// No codeword is near, or the word is longer than 255 bytes, where weights repeat.
    Lost,
}

/// Tries the word itself and then a change of each place. A change adds itself times the place's weight to each sum; in sum 0 that
/// weight is 1, so the change can be no other than this sum.
pub fn verdict(word: &[u8], sums: usize) -> Verdict {
    if word.len() > 255 {
        return Verdict::Lost;
    }
    let found: Vec<u8> = (0..sums).map(|j| sum(j, word)).collect();
    if found.iter().all(|&s| s == 0) {
        return Verdict::Clean;
    }
    let change = found[0];
    let added = |j: usize, place: usize| product(change, weight(j, place, word.len()));
    let fits = |place: &usize| (0..sums).all(|j| added(j, *place) == found[j]);
    match (0..word.len()).find(fits) {
        Some(place) => Verdict::Change { place, value: word[place] ^ change },
        None => Verdict::Lost,
    }
}

/// The codeword that differs from the word in at most one byte.
pub fn nearest(word: &[u8], sums: usize) -> Option<Vec<u8>> {
    let mut near = word.to_vec();
    match verdict(word, sums) {
        Verdict::Clean => {}
        Verdict::Change { place, value } => near[place] = value,
        Verdict::Lost => return None,
    }
    Some(near)
}

/// The codeword that agrees with the word at all but the marked places, as many of which as there are sums it has at most. The
/// marked bytes are the unknowns of one equation for each sum: they are eliminated one after the other, and what an equation
/// without any of them says must hold.
pub fn agreeing(word: &[u8], marked: &[usize], sums: usize) -> Option<Vec<u8>> {
    let mut filled = word.to_vec();
    marked.iter().for_each(|&place| filled[place] = 0);
    let mut rows: Vec<Vec<u8>> = Vec::new();
    for j in 0..sums {
        let mut row: Vec<u8> = marked.iter().map(|&place| weight(j, place, word.len())).collect();
        row.push(sum(j, &filled));
        rows.push(row);
    }
    for column in 0..marked.len() {
        let pivot = (column..sums).find(|&j| rows[j][column] != 0).expect("the weights differ");
        rows.swap(column, pivot);
        eliminate(&mut rows, column);
    }
    if rows[marked.len()..].iter().any(|row| row[marked.len()] != 0) {
        return None;
    }
    for (row, &place) in rows.iter().zip(marked) {
        filled[place] = row[marked.len()];
    }
    Some(filled)
}

/// The row of a column's own number becomes 1 in it, and is taken out of all others.
fn eliminate(rows: &mut [Vec<u8>], column: usize) {
    let by = inverse(rows[column][column]).expect("it isn't 0");
    let pivot: Vec<u8> = rows[column].iter().map(|&x| product(x, by)).collect();
    for (j, row) in rows.iter_mut().enumerate() {
        let times = row[column];
        for (x, &p) in row.iter_mut().zip(&pivot) {
            *x = if j == column { p } else { *x ^ product(p, times) };
        }
    }
}

/// Sets `count` successive bytes so that as many sums are 0: as many unknowns as equations always fit.
pub fn fill(word: &mut [u8], start: usize, count: usize) {
    let places: Vec<usize> = (start..start + count).collect();
    let filled = agreeing(word, &places, count).expect("as many bytes as sums");
    word.copy_from_slice(&filled);
}

#[cfg(test)]
mod tests;
