//! What is compared: one module for each public call. A call that the port
//! gains needs its call in bindings/rust, its line in `port`, its symbol in
//! build.rs and `port` here.

pub mod bend;
pub mod chain;
pub mod chain_writer;
pub mod exact;
pub mod exact_join;
pub mod exact_row;
pub mod exact_trees;
pub mod guard;
pub mod joins;
pub mod least_norm;
pub mod nearest;
pub mod solve;
pub mod sqrt;
pub mod tallied;
pub mod triangle;

use crate::cases::random::Rng;
use crate::coverage::{Class, Coverage};
use crate::reference::rule::{Place, Rule};

/// How zeros in multipliers and joined residuals compare.
#[derive(Clone, Copy, PartialEq, Eq)]
pub enum Zeros {
    /// Against the original, whose larger of +0 and -0 may be either.
    WithoutSign,
    /// Against document 01, which says which.
    WithSign,
}

/// One public call with its cases and its parties.
pub trait Call {
    type Case;
    type Answer;

    const NAME: &'static str;

    /// Whether the original has such a call.
    const IN_ORIGINAL: bool = true;

    /// Where errors of the reference sit that this call can show.
    const PLACES: &'static [Place];

    /// The classes that the cases must reach.
    const CLASSES: &'static [Class];

    fn families() -> Vec<&'static str>;

    fn case(family: &str, rng: &mut Rng) -> Option<Self::Case>;

    fn reference(case: &Self::Case, rule: Rule) -> Self::Answer;

    /// The original's answer, with what only document 01 knows (numbers,
    /// causes, what buffers keep) from the reference's; `None` where the
    /// original is not at hand or has no such call.
    fn original(case: &Self::Case, reference: &Self::Answer) -> Option<Self::Answer>;

    /// The port's answer; `None` where the static library lacks the call.
    fn port(case: &Self::Case) -> Option<Self::Answer>;

    /// The first part in which two answers differ.
    fn difference(
        expected: &Self::Answer,
        found: &Self::Answer,
        zeros: Zeros,
    ) -> Option<&'static str>;

    fn cover(case: &Self::Case, answer: &Self::Answer, coverage: &mut Coverage);

    fn show_case(case: &Self::Case) -> String;

    fn show_answer(answer: &Self::Answer) -> String;
}

/// Whether two values are the same, all NaNs as one.
pub fn same(a: f64, b: f64, zeros: Zeros) -> bool {
    a.to_bits() == b.to_bits()
        || (a.is_nan() && b.is_nan())
        || (zeros == Zeros::WithoutSign && a == b)
}

/// Whether two slices are the same, all NaNs as one.
pub fn all_same(a: &[f64], b: &[f64], zeros: Zeros) -> bool {
    a.len() == b.len() && a.iter().zip(b).all(|(&x, &y)| same(x, y, zeros))
}

/// Values with their bits, one line each.
pub fn show_values(name: &str, values: &[f64]) -> String {
    let mut text = format!("  {name}, {} values\n", values.len());
    for (i, v) in values.iter().enumerate() {
        text.push_str(&format!("    {i}: {v:e} {:016X}\n", v.to_bits()));
    }
    text
}
