//! Sectors, scrambling and F1-frames.

use super::{told, told_of, Told};
use crate::refusal::Refusal;
use crate::sector::BATCH;

extern "C" {
    fn road_write(
        mode: u8,
        minute: u8,
        second: u8,
        frame: u8,
        user: *const u8,
        length: usize,
        out: *mut u8,
        out_length: usize,
    ) -> u8;
    fn road_judge(sector: *const u8, length: usize, values: *mut [u64; 4]) -> u8;
    fn road_repair(
        received: *const u8,
        length: usize,
        out: *mut u8,
        out_length: usize,
        changed: *mut [u64; 1],
    ) -> u8;
    fn road_repair_many(
        received: *const u8,
        length: usize,
        out: *mut u8,
        out_length: usize,
        count: *mut [u64; 1],
        numbers: *mut [u64; BATCH],
        changed: *mut [u64; BATCH],
    ) -> u8;
    fn road_salvage(
        received: *const u8,
        length: usize,
        passes: u8,
        out: *mut u8,
        out_length: usize,
        changes: *mut u8,
        changes_length: usize,
        values: *mut [u64; 2],
    ) -> u8;
    fn road_scramble(sector: *const u8, length: usize, out: *mut u8, out_length: usize) -> u8;
    fn road_cut(scrambled: *const u8, length: usize, out: *mut u8, out_length: usize) -> u8;
    fn road_join(frames: *const u8, length: usize, out: *mut u8, out_length: usize) -> u8;
    fn road_align(
        sectors: *const u8,
        length: usize,
        n: usize,
        out: *mut u8,
        out_length: usize,
    ) -> u8;
    fn road_find(
        frames: *const u8,
        length: usize,
        out: *mut u8,
        out_length: usize,
        values: *mut [u64; 3],
    ) -> u8;
}

pub fn write(mode: u8, address: [u8; 3], data: &[u8], out: &mut [u8]) -> u8 {
    let [minute, second, frame] = address;
    let (user, length) = (data.as_ptr(), data.len());
    unsafe { road_write(mode, minute, second, frame, user, length, out.as_mut_ptr(), out.len()) }
}

pub fn judge(sector: &[u8]) -> Told<4> {
    told(|values| unsafe { road_judge(sector.as_ptr(), sector.len(), values) })
}

pub fn repair(received: &[u8], out: &mut [u8]) -> Told<1> {
    let (received, length) = (received.as_ptr(), received.len());
    let (out, out_length) = (out.as_mut_ptr(), out.len());
    told(|changed| unsafe { road_repair(received, length, out, out_length, changed) })
}

/// What a batch is answered with: how many Sectors it has, and a fate for each of sixteen.
#[derive(Clone, Copy, Debug, PartialEq, Eq)]
pub struct Batch {
    pub answer: Told<1>,
    pub fates: [Told<1>; BATCH],
}

pub fn repair_many(received: &[u8], out: &mut [u8]) -> Batch {
    let (mut numbers, mut changed) = ([u64::MAX; BATCH], [u64::MAX; BATCH]);
    let (received, length) = (received.as_ptr(), received.len());
    let (out, out_length) = (out.as_mut_ptr(), out.len());
    let answer = told(|count| unsafe {
        road_repair_many(received, length, out, out_length, count, &mut numbers, &mut changed)
    });
    let number = |n: usize| u8::try_from(numbers[n]).expect("a number of document 01");
    Batch {
        answer,
        fates: std::array::from_fn(|n| Told { number: number(n), values: [changed[n]] }),
    }
}

/// A batch of this program as the proved code tells it; where there is no Sector stands the refusal 1.
pub fn told_batch(answer: Result<Vec<Result<usize, Refusal>>, Refusal>) -> Batch {
    let mut fates = [told_of(Err::<usize, _>(Refusal::WrongIncoming), |n| vec![n]); BATCH];
    for (place, &fate) in fates.iter_mut().zip(answer.iter().flatten()) {
        *place = told_of(fate, |count| vec![count]);
    }
    Batch { answer: told_of(answer, |sectors| vec![sectors.len()]), fates }
}

pub fn salvage(received: &[u8], passes: u8, out: &mut [u8], list: &mut [u8]) -> Told<2> {
    let (received, length) = (received.as_ptr(), received.len());
    let (out, out_length) = (out.as_mut_ptr(), out.len());
    let (list, list_length) = (list.as_mut_ptr(), list.len());
    told(|values| unsafe {
        road_salvage(received, length, passes, out, out_length, list, list_length, values)
    })
}

pub fn scramble(sector: &[u8], out: &mut [u8]) -> u8 {
    unsafe { road_scramble(sector.as_ptr(), sector.len(), out.as_mut_ptr(), out.len()) }
}

pub fn cut(scrambled: &[u8], out: &mut [u8]) -> u8 {
    unsafe { road_cut(scrambled.as_ptr(), scrambled.len(), out.as_mut_ptr(), out.len()) }
}

pub fn join(frames: &[u8], out: &mut [u8]) -> u8 {
    unsafe { road_join(frames.as_ptr(), frames.len(), out.as_mut_ptr(), out.len()) }
}

pub fn align(sectors: &[u8], n: usize, out: &mut [u8]) -> u8 {
    unsafe { road_align(sectors.as_ptr(), sectors.len(), n, out.as_mut_ptr(), out.len()) }
}

/// Frame, n, and the number of whole Sectors.
pub fn find(frames: &[u8], out: &mut [u8]) -> Told<3> {
    let (frames, length) = (frames.as_ptr(), frames.len());
    let (out, out_length) = (out.as_mut_ptr(), out.len());
    told(|values| unsafe { road_find(frames, length, out, out_length, values) })
}
