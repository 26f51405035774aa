//! Document 01's functions of floats, and sums in a stated order.

use super::rule::Rule;

/// The tolerance of the exact pass and of states: the f64 nearest 1e-9.
pub const EXACT_RESIDUAL: f64 = 1e-9;

/// How many times its scale a multiplier may grow.
pub const DIVERGENCE: f64 = 1e6;

/// lo if v < lo, else hi if v > hi, else v.
pub fn clamp(v: f64, lo: f64, hi: f64, rule: Rule) -> f64 {
    clamp_sided(v, lo, hi, rule).0
}

/// At which bound a clamp stops a value.
#[derive(Clone, Copy, PartialEq, Eq, Debug)]
pub enum Side {
    None,
    Low,
    High,
}

/// The clamp and its side: a value that equals a bound is not stopped.
pub fn clamp_sided(v: f64, lo: f64, hi: f64, rule: Rule) -> (f64, Side) {
    let side = if v < lo || (rule.is(Rule::StoppedAtEqualBound) && v == lo) {
        Side::Low
    } else if v > hi || (rule.is(Rule::StoppedAtEqualBound) && v == hi) {
        Side::High
    } else {
        Side::None
    };
    (clamped(v, lo, hi, rule), side)
}

fn clamped(v: f64, lo: f64, hi: f64, rule: Rule) -> f64 {
    if rule.is(Rule::ClampHiFirst) {
        if v > hi {
            return hi;
        }
        return if v < lo { lo } else { v };
    }
    if rule.is(Rule::ClampByMinAndMax) {
        return v.max(lo).min(hi);
    }
    if v < lo {
        lo
    } else if v > hi {
        hi
    } else {
        v
    }
}

/// The larger of two: the one that is not NaN; NaN if both are; of +0 and -0,
/// +0.
pub fn larger(a: f64, b: f64) -> f64 {
    if a.is_nan() {
        b
    } else if b.is_nan() || a > b || (a == b && a.is_sign_positive()) {
        a
    } else {
        b
    }
}

/// The larger of two, NaN if either is: one of the errors.
pub fn larger_or_nan(a: f64, b: f64) -> f64 {
    if a.is_nan() || b.is_nan() {
        f64::NAN
    } else {
        larger(a, b)
    }
}

/// How a sum of products runs.
#[derive(Clone, Copy, PartialEq)]
pub enum Order {
    /// Upward in index, each product and each sum rounded: document 01's.
    Upward,
    /// Downward in index: one of the errors.
    Downward,
    /// Upward with each product and sum rounded together: one of the errors.
    Fused,
}

impl Order {
    /// Downward or fused where the rule in force is the given one.
    pub fn of(rule: Rule, downward: Rule, fused: Rule) -> Order {
        if rule.is(downward) {
            Order::Downward
        } else if rule.is(fused) {
            Order::Fused
        } else {
            Order::Upward
        }
    }
}

/// `start` plus the products of `pair(i)` for i from `from` up to `to`.
pub fn sum(
    start: f64,
    from: usize,
    to: usize,
    order: Order,
    pair: impl Fn(usize) -> (f64, f64),
) -> f64 {
    let mut s = start;
    for step in from..to {
        let i = if order == Order::Downward {
            from + to - 1 - step
        } else {
            step
        };
        let (x, y) = pair(i);
        s = if order == Order::Fused {
            x.mul_add(y, s)
        } else {
            s + x * y
        };
    }
    s
}
