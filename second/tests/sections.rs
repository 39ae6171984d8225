//! Proved Sections against this program: both sides from one state and from buffers that held (AA), the same answer, the same
//! state and the same bytes.

mod judging;
mod offences;
mod partner;
mod reading;
mod writing;

use second::channel::*;
use second::proved;
use second::random::Random;

fn same_written(
    state: &mut SectionWriter,
    frames: &[u8],
    control: &[u8],
    out_length: usize,
) -> (u8, Vec<u8>) {
    let (mut expected, mut found) = (vec![0xAA; out_length], vec![0xAA; out_length]);
    let mut proved_state = *state;
    let answer = proved::number_of(state.write(frames, control, &mut expected));
    let proved_answer = proved::write_section(&mut proved_state, frames, control, &mut found);
    assert_eq!(proved_answer, answer);
    assert_eq!(proved_state, *state);
    assert!(found == expected);
    (answer, found)
}

fn same_read(channel: &[u8], lengths: [usize; 2]) -> (u8, [Vec<u8>; 2]) {
    let mut expected = lengths.map(|length| vec![0xAA; length]);
    let mut found = expected.clone();
    let [bytes, marks] = &mut expected;
    let answer = proved::number_of(read_section(channel, bytes, marks));
    let [bytes, marks] = &mut found;
    assert_eq!(proved::read_section(channel, bytes, marks), answer);
    assert!(found == expected);
    (answer, found)
}

/// A Section of random bytes, by the proved writer from a fresh state.
fn section(random: &mut Random) -> Vec<u8> {
    let (frames, control) = (random.bytes(FRAME_BYTES), random.bytes(CONTROL_BYTES));
    let mut out = vec![0; PACKED];
    let answer = proved::write_section(&mut SectionWriter::new(), &frames, &control, &mut out);
    assert_eq!(answer, 0);
    out
}

/// What reading must give of what was written: Control bytes before their frames, marks 2 and 3 in the first two places.
fn as_read(frames: &[u8], control: &[u8]) -> [Vec<u8>; 2] {
    let (mut bytes, mut marks) = (Vec::new(), vec![0; READ_BYTES]);
    for (n, frame) in frames.chunks(32).enumerate() {
        bytes.push(if n < 2 { 0 } else { control[n - 2] });
        bytes.extend(frame);
    }
    marks[0] = 2;
    marks[33] = 3;
    [bytes, marks]
}
