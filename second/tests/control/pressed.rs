//! Sections are pressed with these Control bytes and read back.

use super::*;
use second::channel::{FRAME_BYTES, PACKED, READ_BYTES};

#[test]
fn pressed_and_read_back() {
    let mut random = Random::new(35);
    let mut state = proved::new_section_writer();
    for kind in 0..28 {
        let fields = allowed(&mut random, kind);
        let (number, control) = same_written(&fields, CONTROL_BYTES);
        assert_eq!(number, 0);
        let mut channel = vec![0; PACKED];
        let frames = random.bytes(FRAME_BYTES);
        assert_eq!(proved::write_section(&mut state, &frames, &control, &mut channel), 0);
        let (mut bytes, mut marks) = (vec![0; READ_BYTES], vec![0; READ_BYTES]);
        assert_eq!(proved::read_section(&channel, &mut bytes, &mut marks), 0);
        let back: Vec<u8> = bytes.chunks(33).skip(2).map(|frame| frame[0]).collect();
        assert!(back == control);
        assert_eq!(same_read(&back), Ok(fields));
    }
}
