//! Row sums without rounding.

use crate::{calls, Refusal};

/// The words of an exact sum.
pub const EXACT_WORDS: usize = 67;

/// A free motion and up to 32 products W_ij * nu_j, added without rounding. Any
/// order and grouping of the same terms, added or joined, gives the same sum.
#[derive(Clone, Debug, PartialEq, Eq)]
pub struct ExactSum {
    words: [u64; EXACT_WORDS],
    counts: [u32; 2],
}

/// Of a call that answers by its number alone.
fn taken(number: u32) -> Result<(), Refusal> {
    match number {
        0 => Ok(()),
        number => Err(Refusal::of(number)),
    }
}

impl ExactSum {
    /// Nothing added yet.
    pub const EMPTY: ExactSum = ExactSum {
        words: [0; EXACT_WORDS],
        counts: [0; 2],
    };

    /// A whole row: `u`, and the products of `w` and `nu` over the shorter of
    /// the two.
    pub fn row(u: f64, w: &[f64], nu: &[f64]) -> Result<Self, Refusal> {
        let mut sum = Self::EMPTY;
        taken(calls::exact_row(u, w, nu, &mut sum.words, &mut sum.counts))?;
        Ok(sum)
    }

    /// Adds a free motion. What is refused changes nothing, here and below.
    pub fn add_free(&mut self, u: f64) -> Result<(), Refusal> {
        taken(calls::exact_free(u, &mut self.words, &mut self.counts))
    }

    /// Adds a product.
    pub fn add_product(&mut self, w: f64, nu: f64) -> Result<(), Refusal> {
        taken(calls::exact_product(
            w,
            nu,
            &mut self.words,
            &mut self.counts,
        ))
    }

    /// Joins another sum to this one, which receives the total.
    pub fn join(&mut self, other: &ExactSum) -> Result<(), Refusal> {
        taken(calls::exact_join(
            &mut self.words,
            &mut self.counts,
            &other.words,
            &other.counts,
        ))
    }

    /// The sign of the sum: -1, 0 or 1.
    pub fn sign(&self) -> i8 {
        let mut sign = [0];
        calls::exact_sign(&self.words, &mut sign);
        sign[0]
    }

    /// The f64 nearest to the sum.
    pub fn nearest(&self) -> f64 {
        let mut result = [0.0];
        calls::exact_nearest(&self.words, &mut result);
        result[0]
    }

    /// The sum in units of 2^-2148, two's complement, the lowest word first.
    pub fn words(&self) -> &[u64; EXACT_WORDS] {
        &self.words
    }

    /// How many products it holds.
    pub fn products(&self) -> u32 {
        self.counts[0]
    }

    /// Whether it holds a free motion.
    pub fn has_free(&self) -> bool {
        self.counts[1] != 0
    }
}
