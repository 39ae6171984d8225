//! An independent implementation, written from ECMA-130 and document 01 in the plainest way: the peer of the proved crates in differential tests.

pub mod alignment;
pub mod captures;
pub mod channel;
pub mod circ;
pub mod codeword;
pub mod control;
pub mod data_frame;
pub mod edc;
pub mod empties;
pub mod field;
pub mod proved;
pub mod random;
pub mod refusal;
pub mod report;
pub mod scrambling;
pub mod sector;
