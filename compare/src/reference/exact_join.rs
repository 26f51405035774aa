//! Document 02's join of two row sums without rounding (W6): the words add
//! modulo 2^4288, within 32 products and one free motion, or 18.

use super::exact::{meaning, nearest, words, Accumulator, Term, MOST, WORDS};
use super::rule::Rule;
use super::whole::Whole;

impl Accumulator {
    /// Receives the total of both, or gives 18 and changes nothing.
    pub fn join(&mut self, other: &Accumulator, rule: Rule) -> Result<(), u32> {
        let refused = !self.joinable(other, rule);
        if refused && !rule.is(Rule::JoinRefusalWrites) {
            return Err(18);
        }
        self.words = joined(&self.words, &other.words, rule);
        if !rule.is(Rule::JoinProductsOfFirst) {
            self.products = self.products.wrapping_add(other.products);
        }
        self.free = match rule {
            Rule::JoinFreeOfFirst => self.free,
            Rule::JoinFreeOfOther => other.free,
            Rule::JoinFreeOfBoth => self.free && other.free,
            _ => self.free || other.free,
        };
        if refused {
            Err(18)
        } else {
            Ok(())
        }
    }

    /// Whether the total is within one free motion and 32 products.
    fn joinable(&self, other: &Accumulator, rule: Rule) -> bool {
        let empty = Accumulator::empty();
        if rule.is(Rule::JoinEmptyTaken) && (*self == empty || *other == empty) {
            return true;
        }
        let (a, b) = (u64::from(self.products), u64::from(other.products));
        let most = u64::from(MOST);
        let few = match rule {
            Rule::JoinThirtyTwoRefused => a + b < most,
            Rule::JoinThirtyThreeTaken => a + b <= most + 1,
            Rule::JoinCountsWrap => self.products.wrapping_add(other.products) <= MOST,
            Rule::JoinEachWithin => a <= most && b <= most,
            Rule::JoinFirstWithin => a <= most,
            _ => a + b <= most,
        };
        let free = match rule {
            Rule::JoinTwoFreeTaken => false,
            Rule::JoinAnyFreeRefused => self.free || other.free,
            _ => self.free && other.free,
        };
        let carried_out =
            rule.is(Rule::JoinCarryOutRefused) && carry_out(&self.words, &other.words);
        few && !free && !carried_out
    }
}

/// The words of both together, modulo 2^4288.
fn joined(a: &[u64], b: &[u64], rule: Rule) -> Vec<u64> {
    let both = meaning(a, rule).plus(&meaning(b, rule));
    let one = Whole::scaled(false, 1, 0);
    match rule {
        Rule::JoinWithoutCarries => a.iter().zip(b).map(|(a, b)| a.wrapping_add(*b)).collect(),
        Rule::JoinWithoutTopWord => {
            let mut total = words(&both, rule);
            total[WORDS - 1] = a[WORDS - 1];
            total
        }
        Rule::JoinCarryComesBack if carry_out(a, b) => words(&both.plus(&one), rule),
        Rule::JoinSaturates => saturated(&both, rule),
        Rule::JoinOfRounded => of_rounded(nearest(a, rule) + nearest(b, rule), rule),
        _ => words(&both, rule),
    }
}

/// Whether the words, added as whole numbers from 0 on, come to 2^4288 or more.
fn carry_out(a: &[u64], b: &[u64]) -> bool {
    let unsigned = |words: &[u64]| Whole::of(false, words.to_vec());
    unsigned(a).plus(&unsigned(b)).digits() > 64 * WORDS
}

/// The words of a number, or of the end of the range that it lies beyond.
fn saturated(both: &Whole, rule: Rule) -> Vec<u64> {
    let (fill, top) = match both.is_negative() {
        true => (0, 1 << 63),
        false => (u64::MAX, u64::MAX >> 1),
    };
    let mut end = vec![fill; WORDS];
    end[WORDS - 1] = top;
    let kept = words(both, rule);
    if meaning(&kept, rule) == *both {
        kept
    } else {
        end
    }
}

/// The words of a rounded value; none of what is not finite.
fn of_rounded(v: f64, rule: Rule) -> Vec<u64> {
    let mut sum = Accumulator::empty();
    let _ = sum.add(Term::Free(v), rule);
    sum.words
}
