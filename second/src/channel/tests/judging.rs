//! Document 02, 12: offences made by hand.

use super::*;
use crate::channel::judging::judge_sections;

#[test]
fn what_was_written_passes() {
    let (section, _, _) = some_section(1);
    assert_eq!(judge_sections(&section), Ok(()));
    assert_eq!(judge_sections(&section.repeat(10)), Err(WrongIncoming));
}

#[test]
fn each_kind_of_offence() {
    let (section, _, _) = some_section(2);
    let flipped = |bit: usize| {
        let mut section = section.clone();
        section[bit / 8] ^= 0x80 >> (bit % 8);
        judge_sections(&section)
    };
    // a ONE with one ZERO between it and the last ONE of the Sync Header
    assert_eq!(flipped(24), Err(WrongRun { bit: 24 }));
    // a ONE in the Sync Header's ZEROs: the header comes first, at its place
    assert_eq!(flipped(1), Err(WrongHeader { bit: 0 }));
    assert_eq!(flipped(23), Err(WrongHeader { bit: 0 }));
    // the first ONE of SYNC 0
    assert_eq!(flipped(29), Err(WrongWord { bit: 27 }));
}
