//! The worked examples of row sums without rounding held against the
//! reference, the mistakes that each of them shows, and the hardware's sums.

use crate::cases::exact_examples::{examples, Example};
use crate::cases::random::Rng;
use crate::reference::exact::{nearest, row, sign, Accumulator, Term};
use crate::reference::rule::{Rule, RULES};

/// Whether an example shows an error.
fn shows(example: &Example, rule: Rule) -> bool {
    let mut sum = Accumulator::empty();
    let terms = example.terms.iter();
    let numbers: Vec<u32> = terms
        .map(|&term| sum.add(term, rule).err().unwrap_or(0))
        .collect();
    let left = &example.left;
    numbers != example.numbers
        || sum != left.sum
        || sign(&sum.words, rule) != left.sign
        || nearest(&sum.words, rule).to_bits() != left.nearest
}

#[test]
fn thirty_nine_worked_examples() {
    let sums = &examples().sums;
    assert_eq!(sums.len(), 39);
    for example in sums {
        assert!(!shows(example, Rule::None), "example {}", example.number);
    }
}

/// Each likely mistake shows in the examples that are said to show it, and in
/// no others.
#[test]
fn mistakes_show_where_they_are_said_to() {
    let examples = examples();
    assert_eq!(examples.mistakes.len(), 16);
    for mistake in &examples.mistakes {
        let rule = RULES
            .iter()
            .find(|rule| format!("{rule:?}") == mistake.rule);
        let &rule = rule.unwrap_or_else(|| panic!("no error {}", mistake.rule));
        let shown = examples.sums.iter().filter(|example| shows(example, rule));
        let shown: Vec<usize> = shown.map(|example| example.number).collect();
        assert_eq!(shown, mistake.shown_by, "{rule:?}");
    }
}

/// Any zero as +0.
fn plus_zero(v: f64) -> u64 {
    if v == 0.0 { 0.0 } else { v }.to_bits()
}

/// One product alone is the hardware's product, and a free motion with one
/// product its fused multiplication and addition, which both round once.
#[test]
fn sums_that_the_hardware_rounds_once() {
    let mut rng = Rng::of_case("exact/hardware", 1, 0);
    let mut value = || {
        let bits = rng.next();
        let near = rng.next() & 0x800F_FFFF_FFFF_FFFF | (0x3C0 + rng.below(0x80) as u64) << 52;
        f64::from_bits(if rng.chance(50) { bits } else { near })
    };
    for _ in 0..200_000 {
        let (u, w, nu) = (value(), value(), value());
        if !(u.is_finite() && w.is_finite() && nu.is_finite()) {
            continue;
        }
        let mut product = Accumulator::empty();
        product
            .add(Term::Product(w, nu), Rule::None)
            .expect("finite");
        let found = nearest(&product.words, Rule::None).to_bits();
        assert_eq!(found, plus_zero(w * nu), "{w:e} {nu:e}");
        let both = row(u, &[w], &[nu], Rule::None).expect("finite");
        let found = nearest(&both.words, Rule::None).to_bits();
        assert_eq!(found, plus_zero(w.mul_add(nu, u)), "{u:e} {w:e} {nu:e}");
    }
}

/// The request's own point: a rounded sum of 0 that is not 0.
#[test]
fn a_rounded_sum_of_zero() {
    let load = f64::from_bits(0x3FD5_5555_5555_5555);
    assert_eq!(-1.0 + 3.0 * load, 0.0);
    let sum = row(-1.0, &[3.0], &[load], Rule::None).expect("finite");
    assert_eq!(sign(&sum.words, Rule::None), -1);
    assert_eq!(nearest(&sum.words, Rule::None), -(0.5f64.powi(54)));
}
