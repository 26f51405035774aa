//! Why a call was not taken.

use core::fmt;

/// The reason of a refusal, by its number. Nothing was written.
#[derive(Clone, Copy, Debug, PartialEq, Eq)]
#[non_exhaustive]
pub enum Refusal {
    /// 5: more than 32 rows or 2,048 motion values.
    TooLarge,
    /// 6: w is not n by n.
    NotSquare,
    /// 7: lo, hi, scale or nu has not one value for each row.
    Unequal,
    /// 8: a scale that is not finite and above 0.
    Scale,
    /// 9: motion is no whole number of rows of n values.
    Motion,
    /// 10: workspace, states or rows too short.
    Short,
    /// 11: the tally might not hold one solve more.
    Tally,
    /// 12: least norm: lengths that do not agree, or are too large or too small.
    LeastNorm,
    /// 13: a count's sum above 4,294,967,295.
    Join,
    /// 16: the lower triangle has not n(n + 1)/2 values.
    Triangle,
    /// 17: exact sums: a value that is NaN or infinite.
    NotFinite,
    /// 18: exact sums: more than 32 products, or a second free motion.
    ExactFull,
    /// A number that this version does not know.
    Other(u32),
}

impl Refusal {
    pub(crate) fn of(number: u32) -> Self {
        match number {
            5 => Refusal::TooLarge,
            6 => Refusal::NotSquare,
            7 => Refusal::Unequal,
            8 => Refusal::Scale,
            9 => Refusal::Motion,
            10 => Refusal::Short,
            11 => Refusal::Tally,
            12 => Refusal::LeastNorm,
            13 => Refusal::Join,
            16 => Refusal::Triangle,
            17 => Refusal::NotFinite,
            18 => Refusal::ExactFull,
            other => Refusal::Other(other),
        }
    }

    /// The number of docs/SPECIFICATION.md.
    pub fn number(self) -> u32 {
        match self {
            Refusal::TooLarge => 5,
            Refusal::NotSquare => 6,
            Refusal::Unequal => 7,
            Refusal::Scale => 8,
            Refusal::Motion => 9,
            Refusal::Short => 10,
            Refusal::Tally => 11,
            Refusal::LeastNorm => 12,
            Refusal::Join => 13,
            Refusal::Triangle => 16,
            Refusal::NotFinite => 17,
            Refusal::ExactFull => 18,
            Refusal::Other(number) => number,
        }
    }
}

impl fmt::Display for Refusal {
    fn fmt(&self, out: &mut fmt::Formatter) -> fmt::Result {
        let words = match self {
            Refusal::TooLarge => "solve: more than 32 rows or 2,048 motion values",
            Refusal::NotSquare => "solve: w is not n by n",
            Refusal::Unequal => "solve: lo, hi, scale or nu has not one value for each row",
            Refusal::Scale => "solve: a scale that is not finite and above 0",
            Refusal::Motion => "solve: motion is no whole number of rows",
            Refusal::Short => "a buffer that was lent is too short",
            Refusal::Tally => "tallied solve: the tally might not hold one solve more",
            Refusal::LeastNorm => {
                "least norm: lengths that do not agree, or too large or too small"
            }
            Refusal::Join => "joins: a count's sum too large, or a buffer too short",
            Refusal::Triangle => "triangle solve: the lower triangle has not n(n + 1)/2 values",
            Refusal::NotFinite => "exact sum: a value that is NaN or infinite",
            Refusal::ExactFull => "exact sum: more than 32 products, or a second free motion",
            Refusal::Other(_) => "not a number of this library",
        };
        write!(out, "refused {}: {words}", self.number())
    }
}

impl core::error::Error for Refusal {}
