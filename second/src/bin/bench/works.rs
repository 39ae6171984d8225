//! What is timed: the unit, and the proved code with the most units that each work may take. That is the aim of docs/ for scrambling (0.25),
//! `cut` and `join` (0.1), the CIRC writer and reader (3.5 and 5) and a judged Section (6), and else one and a half times what it took.

use crate::{Crc, Work};
use second::alignment::{FRAME, MOST_FRAMES, MOST_SECTORS, ROOM};
use second::captures::{CAPTURE, LIST as RUN_LIST};
use second::channel::*;
use second::proved;
use second::random::Random;
use second::sector::{p_positions, BATCH, LENGTH, LIST, P_CODEWORDS, SYNC};
use std::hint::black_box;

/// The unit first, then what is held against it.
pub fn works() -> Vec<Work> {
    let sector = Random::new(1).bytes(2352);
    let crc = Crc::new();
    let unit = {
        let sector = sector.clone();
        move || {
            black_box(crc.pass(black_box(&sector)));
        }
    };
    let mut works = vec![Work::new("unit: CRC-32 by a byte table, 2,352 bytes", 1.0, unit)];
    works.extend(edc(&sector));
    works.extend(sectors());
    works.extend(frames(&sector));
    works.extend(alignment());
    works.extend(circ(&sector));
    works.extend(sections());
    works.extend(captures());
    works
}

fn edc(sector: &[u8]) -> Vec<Work> {
    let sector = sector.to_vec();
    let once = move || {
        black_box(proved::edc_remainder(black_box(&sector)));
    };
    vec![Work::new("EDC of 2,352 bytes", 0.55, once)]
}

fn sectors() -> Vec<Work> {
    let mut random = Random::new(2);
    let data = random.bytes(2048);
    let mut clean = vec![0; 2352];
    assert_eq!(proved::write(1, [0x12, 0x34, 0x56], &data, &mut clean), 0);
    let mut damaged = clean.clone();
    for n in 0..P_CODEWORDS {
        damaged[p_positions(n)[random.below(26)]] ^= random.change();
    }
    let mut twice = clean.clone();
    for n in 0..4 {
        let places = p_positions(20 * n);
        twice[places[n]] ^= random.change();
        twice[places[n + 13]] ^= random.change();
    }
    let mut out = vec![0; 2352];
    let write = move || {
        let answer = proved::write(1, [0x12, 0x34, 0x56], black_box(&data), black_box(&mut out));
        assert_eq!(answer, 0);
    };
    let judged = clean.clone();
    let judge = move || {
        assert_eq!(proved::judge(black_box(&judged)).number, 0);
    };
    let repair = |received: Vec<u8>, changed: u64| {
        let mut out = vec![0; 2352];
        move || {
            let answer = proved::repair(black_box(&received), black_box(&mut out));
            assert_eq!((answer.number, answer.values), (0, [changed]));
        }
    };
    let each = repair(damaged, P_CODEWORDS as u64);
    let [at_once, one_by_one] = sixteen(&clean);
    let salvage = {
        let (mut out, mut list) = (vec![0; 2352], vec![0; LIST]);
        move || {
            let answer = proved::salvage(black_box(&twice), 32, &mut out, black_box(&mut list));
            assert_eq!((answer.number, answer.values), (0, [2, 8]));
        }
    };
    vec![
        Work::new("write a Sector of Mode 01", 0.8, write),
        Work::new("judge it", 1.9, judge),
        Work::new("repair it, clean", 1.1, repair(clean, 0)),
        Work::new("repair it, a wrong byte in each P codeword", 1.3, each),
        Work::new("salvage it, two wrong bytes in four P codewords: two passes", 3.4, salvage),
        at_once,
        one_by_one,
    ]
}

/// Sixteen times a clean Sector, in one call and in sixteen.
fn sixteen(clean: &[u8]) -> [Work; 2] {
    let received = clean.repeat(BATCH);
    let mut out = vec![0; received.len()];
    let sectors = received.clone();
    let mut places = out.clone();
    let at_once = move || {
        let batch = proved::repair_many(black_box(&received), black_box(&mut out));
        assert_eq!((batch.answer.number, batch.answer.values), (0, [BATCH as u64]));
    };
    let one_by_one = move || {
        for (sector, place) in sectors.chunks(LENGTH).zip(places.chunks_mut(LENGTH)) {
            let answer = proved::repair(black_box(sector), black_box(place));
            assert_eq!((answer.number, answer.values), (0, [0]));
        }
    };
    [
        Work::new("repair 16 clean Sectors in one call", 16.0 * 1.1, at_once),
        Work::new("repair 16 clean Sectors in 16 calls", 16.0 * 1.1, one_by_one),
    ]
}

fn frames(sector: &[u8]) -> Vec<Work> {
    type Step = fn(&[u8], &mut [u8]) -> u8;
    let steps: [(&'static str, f64, Step); 3] = [
        ("scramble a Sector", 0.25, proved::scramble),
        ("cut a Sector", 0.1, proved::cut),
        ("join its frames", 0.1, proved::join),
    ];
    let work = |(name, most, step): (&'static str, f64, Step)| {
        let (sector, mut out) = (sector.to_vec(), vec![0; 2352]);
        let once = move || {
            assert_eq!(step(black_box(&sector), black_box(&mut out)), 0);
        };
        Work::new(name, most, once)
    };
    steps.map(work).into()
}

/// F2-frames with marks behind each: those of a frame's first three even rows say that they are lost where `lost` does, so that its
/// C1 word goes on marked whole.
fn with_marks(f2: &[u8], lost: impl Fn(usize) -> bool) -> Vec<u8> {
    let mut all = Vec::new();
    for (n, frame) in f2.chunks(32).enumerate() {
        all.extend(frame);
        all.extend((0..32).map(|row| (lost(n) && [0, 2, 4].contains(&row)) as u8));
    }
    all
}

/// Sixteen Sectors at the last place of a frame, there and back, and as many frames as are taken without Sync.
fn alignment() -> Vec<Work> {
    let mut sectors = Random::new(4).bytes(LENGTH * MOST_SECTORS);
    sectors[..12].copy_from_slice(&SYNC);
    let mut frames = vec![0; sectors.len() + FRAME];
    assert_eq!(proved::align(&sectors, 5, &mut frames), 0);
    let mut out = frames.clone();
    let align = move || {
        assert_eq!(proved::align(black_box(&sectors), 5, black_box(&mut out)), 0);
    };
    let find = |frames: Vec<u8>, number: u8| {
        let mut out = vec![0; ROOM];
        move || {
            assert_eq!(proved::find(black_box(&frames), black_box(&mut out)).number, number);
        }
    };
    vec![
        Work::new("align 16 Sectors at n = 5", 0.35, align),
        Work::new("find them", 0.6, find(frames, 0)),
        Work::new("find no Sync in 2,730 frames", 3.6, find(vec![0; FRAME * MOST_FRAMES], 24)),
    ]
}

fn circ(sector: &[u8]) -> Vec<Work> {
    type Run = fn(&[u8], &mut [u8], &mut [u8]);
    const SIX: usize = 6 * FRAMES;
    let six = sector.repeat(6);
    let mut f2 = vec![0; SIX * 32];
    proved::circ_write(&six, &mut [24, 32].repeat(SIX), &mut f2);
    let work = |name, most, run: Run, frames: &[u8], lengths: [u8; 2]| {
        let frames = frames.to_vec();
        let count = frames.len() / lengths[0] as usize;
        let mut out = vec![0; count * lengths[1] as usize];
        let lengths = lengths.repeat(count);
        let once = move || {
            let mut steps = lengths.clone();
            run(black_box(&frames), &mut steps, black_box(&mut out));
            assert!(steps.iter().all(|&answer| answer == 0));
        };
        Work::new(name, most, once)
    };
    // Row k of a C2 word is of the C1 word 108 - 4k steps before: with four lost of each 28, every C2 word has four lost rows.
    let plain = with_marks(&f2[..FRAME_BYTES], |_| false);
    let lost = with_marks(&f2, |n| n / 4 % 7 == 0);
    let read: Run = proved::circ_read;
    vec![
        work("CIRC writer, 98 frames", 3.5, proved::circ_write, sector, [24, 32]),
        work("CIRC reader, 98 frames, undamaged", 5.0, read, &plain, [64, 24]),
        work("CIRC reader, 588 frames, four erasures a C2 word", 155.0, read, &lost, [64, 24]),
    ]
}

fn sections() -> Vec<Work> {
    let mut random = Random::new(3);
    let (frames, control) = (random.bytes(FRAME_BYTES), random.bytes(CONTROL_BYTES));
    let mut channel = vec![0; PACKED];
    proved::write_section(&mut SectionWriter::new(), &frames, &control, &mut channel);
    let mut out = vec![0; PACKED];
    let write = move || {
        let mut state = SectionWriter::new();
        let answer = proved::write_section(&mut state, black_box(&frames), &control, &mut out);
        assert_eq!((answer, state.count), (0, 1));
    };
    let judged = channel.clone();
    let judge = move || {
        assert_eq!(proved::judge_sections(black_box(&judged)).number, 0);
    };
    let (mut bytes, mut marks) = (vec![0; READ_BYTES], vec![0; READ_BYTES]);
    let read = move || {
        assert_eq!(proved::read_section(black_box(&channel), &mut bytes, &mut marks), 0);
    };
    vec![
        Work::new("write a Section", 22.0, write),
        Work::new("read a Section", 1.9, read),
        Work::new("judge a Section", 6.0, judge),
    ]
}

/// The longest capture, of a Sync Header and legal runs behind it: kept, restored and replayed.
fn captures() -> Vec<Work> {
    let mut random = Random::new(5);
    let mut count = 0u16;
    let mut capture = Vec::new();
    for edge in 0..CAPTURE / 2 {
        capture.extend(count.to_be_bytes());
        let ticks = if edge < 2 { 88 } else { 20 + random.below(64) as u16 };
        count = count.wrapping_add(ticks);
    }
    let mut list = vec![0; RUN_LIST];
    let used = proved::runs_of(&capture, &mut list).values[0] as usize;
    let kept = list[..used].to_vec();
    let given = capture.clone();
    let keep = move || {
        assert_eq!(proved::runs_of(black_box(&given), black_box(&mut list)).number, 0);
    };
    let mut restored = vec![0; CAPTURE];
    let restore = move || {
        assert_eq!(proved::capture_of(black_box(&kept), black_box(&mut restored)).number, 0);
    };
    let mut frames = vec![0; CAPTURE];
    let replay = move || {
        assert_eq!(proved::replay(black_box(&capture), black_box(&mut frames)).number, 0);
    };
    vec![
        Work::new("keep a capture of 64 KiB as its list of runs", 5.6, keep),
        Work::new("restore it", 5.6, restore),
        Work::new("replay a capture of 64 KiB", 33.0, replay),
    ]
}
