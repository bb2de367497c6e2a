//! Tries the static library of the cabinet from outside, against the independent implementation in tests/reference.

pub mod boxes;
pub mod call;
pub mod calls;
pub mod chance;
pub mod guarded;
pub mod plans;
pub mod share;
pub mod tally;
pub mod trial;
