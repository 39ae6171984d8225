//! Document 02, 6: frames without a Sync Header.

use super::*;

/// The same with 33 zeros and marks 4 for each of these frames.
fn without(read: (Vec<u8>, Vec<u8>), lost: &[usize]) -> (Vec<u8>, Vec<u8>) {
    let (mut bytes, mut marks) = read;
    for frame in lost {
        bytes[33 * frame..][..33].fill(0);
        marks[33 * frame..][..33].fill(4);
    }
    (bytes, marks)
}

#[test]
fn a_frame_without_a_header_costs_itself_only() {
    let mut random = Random::new(14);
    let (section, frames, control) = some_section(14);
    let expected = expected(&frames, &control);
    let mut bits = unpack(&section);
    let mut lost = Vec::new();
    for frame in (0..98).rev() {
        bits[588 * frame + random.below(24)] ^= 1;
        lost.push(frame);
        assert_eq!(read(&pack(&bits)), without(expected.clone(), &lost));
    }
    for frame in [0, 1, 40, 97] {
        for bit in 0..24 {
            let mut bits = unpack(&section);
            bits[588 * frame + bit] ^= 1;
            assert_eq!(read(&pack(&bits)), without(expected.clone(), &[frame]));
        }
    }
    assert_eq!(read(&[0; PACKED]), (vec![0; READ_BYTES], vec![4; READ_BYTES]));
}
