//! An implementation of document 01 of its own, in that document's order. It
//! is held against the original, and it gives what the original has no word
//! for: refusal numbers, causes, what a lent buffer keeps, the tally and the
//! bend file. What document 02 adds is written from that document alone.
//!
//! Every part takes a [`Rule`], the single error put in on purpose. In
//! ordinary use it is [`Rule::None`]; the command `mutations` puts in each
//! error in turn and counts the cases that show it.
//!
//! Loops go by index, and ends of passes and solves are plain enums, because
//! that is how document 01 reads.

#![allow(clippy::needless_range_loop, clippy::large_enum_variant)]

pub mod bend;
pub mod chain;
pub mod chain_writer;
pub mod exact;
pub mod exact_join;
pub mod float;
pub mod least_norm;
pub mod pass;
pub mod print;
pub mod problem;
pub mod ray;
pub mod report;
pub mod rule;
pub mod solve;
pub mod state;
pub mod triangle;
pub mod whole;

pub use rule::Rule;
