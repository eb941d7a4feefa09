//! The proved library beside the plain implementation: inputs made from
//! seeds, and both sides as one table of calls.
#![forbid(unsafe_code)]

pub mod calls;
pub mod cases;
pub mod convert;
pub mod library;
pub mod random;
