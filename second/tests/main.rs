//! This program held against the proved code, and its own way down and up (`road`). All tests are one program, since each takes its time to
//! build.

mod alignment;
mod captures;
mod circ;
mod circ_rings;
mod codewords;
mod control;
mod data_frames;
mod edc;
mod empties;
mod field;
mod images;
mod lanes;
mod lost_frames;
mod program;
mod report;
mod road;
mod scrambling;
mod sections;
mod sectors;

/// The refusal that lengths ask for, by whether the incoming and the outgoing ones are right: 1 before 2.
fn of_lengths(incoming: bool, outgoing: bool) -> u8 {
    match (incoming, outgoing) {
        (false, _) => 1,
        (true, false) => 2,
        (true, true) => 0,
    }
}
