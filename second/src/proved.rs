//! The proved crates, by the functions of the crates `exports` and `road_exports`. Each hands back the number of its answer, 0 or document 01's number
//! of the refusal, and puts the values that come with it into lent memory, with zeros behind them.

mod captures;
mod controls;
mod data_frames;
mod runs;
mod sectors;
mod words;

pub use captures::*;
pub use controls::*;
pub use data_frames::*;
pub use runs::*;
pub use sectors::*;
pub use words::*;

use crate::codeword::Verdict;
use crate::refusal::Refusal;

/// An answer with its values, of an entry that has this many places for them.
#[derive(Clone, Copy, Debug, PartialEq, Eq)]
pub struct Told<const PLACES: usize> {
    pub number: u8,
    pub values: [u64; PLACES],
}

/// What a proved entry tells, which is lent memory that holds no zeros.
fn told<const PLACES: usize>(entry: impl FnOnce(&mut [u64; PLACES]) -> u8) -> Told<PLACES> {
    let mut values = [u64::MAX; PLACES];
    let number = entry(&mut values);
    Told { number, values }
}

fn placed<const PLACES: usize>(number: u8, values: &[usize]) -> Told<PLACES> {
    let mut places = [0; PLACES];
    for (n, &value) in values.iter().enumerate() {
        places[n] = value as u64;
    }
    Told { number, values: places }
}

/// An answer of this program as the proved code tells it.
pub fn told_of<T, const PLACES: usize>(
    answer: Result<T, Refusal>,
    values: impl Fn(T) -> Vec<usize>,
) -> Told<PLACES> {
    match answer {
        Ok(done) => placed(0, &values(done)),
        Err(refusal) => placed(refusal.number(), refusal.value().as_slice()),
    }
}

/// The same for an answer without values.
pub fn number_of(answer: Result<(), Refusal>) -> u8 {
    told_of::<_, 0>(answer, |()| Vec::new()).number
}

/// The same for a verdict: 0 for clean, 1 with place and value, 2 for lost.
pub fn told_verdict(verdict: Verdict) -> Told<2> {
    match verdict {
        Verdict::Clean => placed(0, &[]),
        Verdict::Change { place, value } => placed(1, &[place, value as usize]),
        Verdict::Lost => placed(2, &[]),
    }
}

#[cfg(test)]
mod tests {
    use super::*;

    #[test]
    fn number_and_values_with_zeros_behind() {
        assert_eq!(number_of(Ok(())), 0);
        assert_eq!(number_of(Err(Refusal::WrongSync)), 10);
        let refused: Result<(), Refusal> = Err(Refusal::WrongQ { codeword: 51 });
        assert_eq!(told_of(refused, |()| vec![]), Told { number: 14, values: [51, 0] });
        assert_eq!(told_of(Ok(3), |n| vec![1, 2, n]), Told { number: 0, values: [1, 2, 3] });
        let change = told_verdict(Verdict::Change { place: 0, value: 0 });
        assert_eq!(change, Told { number: 1, values: [0, 0] });
    }
}
