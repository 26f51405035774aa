//! Document 02's row sum without rounding (W5): a whole number of 2^-2148 in
//! 67 words of 64 bits, two's complement, with refusals 17 and 18. Two of them
//! are joined in `exact_join`.

use super::rule::Rule;
use super::whole::Whole;

/// The words of an accumulator.
pub const WORDS: usize = 67;

/// The most products.
pub const MOST: u32 = 32;

/// The binary digit that stands for 2^-1074, the smallest f64.
const SMALLEST: usize = 1_074;

/// An accumulator: a free motion and products, added without rounding.
#[derive(Clone, Debug, PartialEq, Eq)]
pub struct Accumulator {
    /// The words, the lowest first.
    pub words: Vec<u64>,
    pub products: u32,
    pub free: bool,
}

/// One term.
#[derive(Clone, Copy, Debug)]
pub enum Term {
    Free(f64),
    Product(f64, f64),
}

impl Accumulator {
    pub fn empty() -> Self {
        Accumulator {
            words: vec![0; WORDS],
            products: 0,
            free: false,
        }
    }

    /// Adds a term, or gives the number of the refusal and changes nothing.
    pub fn add(&mut self, term: Term, rule: Rule) -> Result<(), u32> {
        let (full, finite) = match term {
            Term::Free(u) => (self.free, u.is_finite()),
            Term::Product(w, nu) => (self.full(rule), product_taken(w, nu, rule)),
        };
        if rule.is(Rule::SeventeenFirst) && !finite {
            return Err(17);
        }
        if full {
            return Err(18);
        }
        if !finite {
            if rule.is(Rule::SeventeenCounts) {
                self.count(term, rule);
            }
            return Err(17);
        }
        self.count(term, rule);
        let sum = meaning(&self.words, rule).plus(&whole(term, rule));
        self.words = words(&sum, rule);
        Ok(())
    }

    fn full(&self, rule: Rule) -> bool {
        match rule {
            Rule::RowOf33 => false,
            Rule::Product33Taken => self.products > MOST,
            Rule::FullAtMostOnly => self.products == MOST,
            _ => self.products >= MOST,
        }
    }

    fn count(&mut self, term: Term, rule: Rule) {
        let zero = match term {
            Term::Free(u) => u == 0.0,
            Term::Product(w, nu) => w == 0.0 || nu == 0.0,
        };
        if zero && rule.is(Rule::ZerosUncounted) {
            return;
        }
        match term {
            Term::Free(_) => self.free = true,
            Term::Product(..) => self.products = self.products.wrapping_add(1),
        }
    }
}

/// Whether both values are finite.
fn product_taken(w: f64, nu: f64, rule: Rule) -> bool {
    let zero = rule.is(Rule::ZeroTimesInfinityTaken) && (w == 0.0 || nu == 0.0);
    zero || (w.is_finite() && nu.is_finite())
}

/// A row: the free motion, then the products of as many values as both have.
/// It is begun empty.
pub fn row(u: f64, w: &[f64], nu: &[f64], rule: Rule) -> Result<Accumulator, u32> {
    let count = w.len().min(nu.len());
    let used = match rule {
        Rule::RowLooksPast => (w, nu),
        _ => (&w[..count], &nu[..count]),
    };
    let finite = u.is_finite() && used.0.iter().chain(used.1).all(|v| v.is_finite());
    let many = count > MOST as usize && !rule.is(Rule::RowOf33);
    if rule.is(Rule::RowSeventeenFirst) && !finite {
        return Err(17);
    }
    if many {
        return Err(18);
    }
    if !finite {
        return Err(17);
    }
    let mut sum = Accumulator::empty();
    if !rule.is(Rule::RowWithoutFree) {
        sum.add(Term::Free(u), rule)?;
    }
    for (&w, &nu) in used.0.iter().zip(used.1) {
        sum.add(Term::Product(w, nu), rule)?;
    }
    Ok(sum)
}

/// A finite value: its sign, its significand, and the power of two of which
/// that is a multiple, in units of 2^-1074.
fn parts(v: f64, rule: Rule) -> (bool, u64, i64) {
    const FRACTION: u64 = (1 << 52) - 1;
    let bits = v.to_bits();
    let (exponent, fraction) = (bits >> 52 & 0x7FF, bits & FRACTION);
    let negative = bits >> 63 == 1 && !rule.is(Rule::SignsIgnored);
    match (exponent, rule) {
        (0, Rule::HiddenDigitOfSubnormals) => (negative, fraction | 1 << 52, 0),
        (0, Rule::SubnormalsTooLow) => (negative, fraction, -1),
        (0, _) => (negative, fraction, 0),
        _ => (negative, fraction | 1 << 52, exponent as i64 - 1),
    }
}

/// A term as a whole number of 2^-2148.
fn whole(term: Term, rule: Rule) -> Whole {
    match term {
        Term::Free(u) => {
            let (negative, significand, shift) = parts(u, rule);
            let units = match rule {
                Rule::UnitsTooLarge => SMALLEST - 1,
                _ => SMALLEST,
            };
            Whole::scaled(negative, u128::from(significand), shift + units as i64)
        }
        Term::Product(w, nu) => {
            let (w, nu) = (parts(w, rule), parts(nu, rule));
            let significand = match rule {
                Rule::ProductRounded => ((u128::from(w.1) * u128::from(nu.1)) >> 53) << 53,
                _ => u128::from(w.1) * u128::from(nu.1),
            };
            Whole::scaled(w.0 != nu.0, significand, w.2 + nu.2)
        }
    }
}

fn word_count(rule: Rule) -> usize {
    if rule.is(Rule::SixtySixWords) {
        WORDS - 1
    } else {
        WORDS
    }
}

/// The words of minus the number that these are the words of.
fn negated(words: &[u64]) -> Vec<u64> {
    let mut carry = true;
    let turned = words.iter().map(|&word| {
        let (sum, over) = (!word).overflowing_add(u64::from(carry));
        carry = over;
        sum
    });
    turned.collect()
}

/// The whole number that the words stand for.
pub fn meaning(words: &[u64], rule: Rule) -> Whole {
    let words = &words[..word_count(rule)];
    let negative = words.last().is_some_and(|top| top >> 63 == 1);
    if negative {
        Whole::of(true, negated(words))
    } else {
        Whole::of(false, words.to_vec())
    }
}

/// The words of a whole number, modulo 2^4288.
pub fn words(whole: &Whole, rule: Rule) -> Vec<u64> {
    let mut words: Vec<u64> = (0..word_count(rule)).map(|k| whole.word(k)).collect();
    if whole.is_negative() {
        words = negated(&words);
    }
    words.resize(WORDS, 0);
    words
}

/// The sign of the exact sum: -1, 0 or 1.
pub fn sign(words: &[u64], rule: Rule) -> i8 {
    let sum = meaning(words, rule);
    match rule {
        Rule::SignOfRounded => {
            let rounded = nearest(words, rule);
            i8::from(rounded > 0.0) - i8::from(rounded < 0.0)
        }
        Rule::SignOfTopWord => (words[WORDS - 1] as i64).signum() as i8,
        _ if sum.is_zero() => 0,
        _ if sum.is_negative() => -1,
        _ => 1,
    }
}

/// The nearest f64, ties to even; any zero is +0, and what is too large is
/// infinite.
pub fn nearest(words: &[u64], rule: Rule) -> f64 {
    let sum = meaning(words, rule);
    let bits = magnitude(&sum, rule);
    let signed = sum.is_negative() && (bits != 0 || rule.is(Rule::MinusZero));
    f64::from_bits(bits | u64::from(signed) << 63)
}

const INFINITY: u64 = 0x7FF0_0000_0000_0000;

/// The bits of the magnitude's nearest f64.
fn magnitude(sum: &Whole, rule: Rule) -> u64 {
    // The place of the last digit that an f64 of this size has.
    let last = sum.digits().saturating_sub(53).max(SMALLEST);
    let kept = if rule.is(Rule::TwiceRounded) {
        let first = sum.digits().saturating_sub(53);
        let once = rounded(sum, first, rule);
        rounded(
            &Whole::scaled(false, u128::from(once), first as i64),
            last,
            rule,
        )
    } else {
        rounded(sum, last, rule)
    };
    let bits = ((last - SMALLEST) as u64) * (1 << 52) + kept;
    let early = sum.digits() <= 2 * SMALLEST + 1_024;
    match rule {
        Rule::SubnormalsFlushed if bits < 1 << 52 => 0,
        Rule::OverflowLargest if bits >= INFINITY => INFINITY - 1,
        Rule::InfinityLate if bits >= INFINITY && early => INFINITY - 1,
        _ => bits.min(INFINITY),
    }
}

/// The magnitude without the digits below place `last`, rounded to nearest,
/// ties to even.
fn rounded(sum: &Whole, last: usize, rule: Rule) -> u64 {
    let kept = sum.digits_from(last);
    if last == 0 || !sum.digit(last - 1) {
        return kept;
    }
    let seen_from = match rule {
        Rule::GuardWordOnly => last.saturating_sub(64),
        _ => 0,
    };
    let above = sum.any_digit(seen_from, last - 1);
    let odd = kept % 2 == 1;
    let up = match rule {
        Rule::CutOff => false,
        Rule::TiesAway => true,
        Rule::TiesToOdd => above || !odd,
        _ => above || odd,
    };
    kept + u64::from(up)
}
