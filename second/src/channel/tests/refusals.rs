//! Document 01, Numbers that come back: the Section writer.

use super::*;

fn refused(writer: SectionWriter) -> Option<Refusal> {
    let mut after = writer;
    let mut out = vec![0xAA; PACKED];
    let answer = after.write(&[7; FRAME_BYTES], &[7; CONTROL_BYTES], &mut out);
    if answer.is_err() {
        assert_eq!(out, [0; PACKED]);
        assert_eq!(after, writer);
    } else {
        assert_eq!(after.count, writer.count + 1);
    }
    answer.err()
}

#[test]
fn states_at_the_edges_of_9_and_7() {
    let state = |level, dsv, count| SectionWriter { level, dsv, count };
    for level in [-2, 0, 2, 127, i64::MIN, i64::MAX] {
        assert_eq!(refused(state(level, 0, 1)), Some(WrongState));
    }
    for sign in [-1, 1] {
        assert_eq!(refused(state(1, sign, 0)), Some(WrongState));
        assert_eq!(refused(state(sign, 0, 0)), None);
        assert_eq!(refused(state(1, sign * 57_624, 1)), None);
        assert_eq!(refused(state(1, sign * 57_625, 1)), Some(WrongState));
        let most = 57_624 * 449_999;
        assert_eq!(refused(state(1, sign * most, 449_999)), None);
        assert_eq!(refused(state(1, sign * (most + 1), 449_999)), Some(WrongState));
        let most = 57_624 * 450_000;
        assert_eq!(refused(state(1, sign * most, 450_000)), Some(SectionsUsedUp));
        assert_eq!(refused(state(1, sign * (most + 1), 450_000)), Some(WrongState));
    }
    assert_eq!(refused(state(-1, 0, 450_001)), Some(WrongState));
    assert_eq!(refused(state(-1, 0, u64::MAX)), Some(WrongState));
    assert_eq!(refused(state(0, 0, 450_000)), Some(WrongState));
    assert_eq!(refused(state(1, i64::MIN, 450_000)), Some(WrongState));
}

/// All combinations of wrong lengths and the two refusals of a state: the first in the order 1, 2, 9, 7 is the answer.
#[test]
fn order_of_refusals() {
    for faults in 1..32 {
        let has = |bit: u8| faults >> bit & 1 == 1;
        let frames = vec![7; if has(0) { FRAME_BYTES - 1 } else { FRAME_BYTES }];
        let control = vec![7; if has(1) { CONTROL_BYTES + 1 } else { CONTROL_BYTES }];
        let mut out = vec![0xAA; if has(2) { PACKED + 1 } else { PACKED }];
        let level = if has(3) { 0 } else { -1 };
        let count = if has(4) { 450_000 } else { 0 };
        let before = SectionWriter { level, dsv: 0, count };
        let mut writer = before;
        let expected = if has(0) || has(1) {
            WrongIncoming
        } else if has(2) {
            WrongOutgoing
        } else if has(3) {
            WrongState
        } else {
            SectionsUsedUp
        };
        assert_eq!(writer.write(&frames, &control, &mut out), Err(expected));
        assert_eq!(writer, before);
        let left = if has(2) { 0xAA } else { 0x00 };
        assert!(out.iter().all(|&byte| byte == left));
    }
}
