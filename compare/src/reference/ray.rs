//! The ray: whether a direction is one along which the problem falls without
//! bound, and the rows that it moves.

use super::float::{larger, DIVERGENCE, EXACT_RESIDUAL};
use super::problem::{Problem, MOST_ROWS};
use super::rule::Rule;
use super::state::State;

/// Row numbers, rising.
#[derive(Clone, Copy)]
pub struct RowList {
    numbers: [usize; MOST_ROWS],
    count: usize,
}

impl RowList {
    pub fn empty() -> Self {
        RowList {
            numbers: [0; MOST_ROWS],
            count: 0,
        }
    }

    pub fn push(&mut self, row: usize) {
        self.numbers[self.count] = row;
        self.count += 1;
    }

    pub fn as_slice(&self) -> &[usize] {
        &self.numbers[..self.count]
    }
}

/// The rows of the ray along `y`, or none where it is no ray. Entries of `y`
/// too small beside the largest are dropped.
pub fn ray(p: &Problem, states: &[State], y: &mut [f64], rule: Rule) -> Option<RowList> {
    let acts = |a: usize| states[a] != State::Idle || rule.is(Rule::RayLargestOfIdle);
    let size = |a: usize, y: f64| y.abs() / p.scale[a];
    let largest = (0..p.n())
        .filter(|&a| acts(a))
        .fold(0.0, |l, a| larger(l, size(a, y[a])));
    if largest == 0.0 && !rule.is(Rule::RayZeroGoesOn) {
        return None;
    }
    let rows = collect(p, states, y, largest, rule)?;
    let (lin, quad) = along(p, y, &rows, rule);
    if rejected(lin, rule) {
        return None;
    }
    let mut far = rows
        .as_slice()
        .iter()
        .fold(0.0, |f, &a| larger(f, size(a, y[a])));
    if rule.is(Rule::RayFarOfDropped) {
        far = largest;
    }
    let flat = if rule.is(Rule::RayQuadStrict) {
        quad < 0.0
    } else {
        quad <= 0.0
    };
    let least = if rule.is(Rule::RayLeastWithoutFar) {
        -lin / quad
    } else {
        -lin / quad * far
    };
    let past = if rule.is(Rule::RayAtMillion) {
        least >= DIVERGENCE
    } else {
        least > DIVERGENCE
    };
    let past = past && !rule.is(Rule::RayOnlyFlat);
    (flat || past).then_some(rows)
}

/// The rows that move, if each may grow without end; entries not counted are
/// set to zero.
fn collect(
    p: &Problem,
    states: &[State],
    y: &mut [f64],
    largest: f64,
    rule: Rule,
) -> Option<RowList> {
    let limit = match rule {
        Rule::RayDropAbsolute => EXACT_RESIDUAL,
        Rule::RayDropsNone => 0.0,
        _ => EXACT_RESIDUAL * largest,
    };
    let mut rows = RowList::empty();
    for a in 0..p.n() {
        let size = y[a].abs() / p.scale[a];
        let small = if rule.is(Rule::RayDropStrict) {
            size < limit
        } else {
            size <= limit
        };
        if states[a] == State::Idle || small {
            y[a] = 0.0;
            continue;
        }
        let up = y[a] > 0.0 && (p.hi[a] == f64::INFINITY || rule.is(Rule::RayHiFinite));
        let down = y[a] < 0.0 && (p.lo[a] == f64::NEG_INFINITY || rule.is(Rule::RayLoFinite));
        if !(up || down) {
            return None;
        }
        rows.push(a);
    }
    Some(rows)
}

/// Whether the linear part turns the ray down: only if it is at least 0.
fn rejected(lin: f64, rule: Rule) -> bool {
    match rule {
        Rule::RayNanRejected => lin.is_nan() || lin >= 0.0,
        Rule::RayLinZeroTaken => lin > 0.0,
        _ => lin >= 0.0,
    }
}

/// The linear and the quadratic part of the objective along the ray.
fn along(p: &Problem, y: &[f64], rows: &RowList, rule: Rule) -> (f64, f64) {
    let (mut lin, mut quad) = (0.0, 0.0);
    for &a in rows.as_slice() {
        lin += p.u_free[a] * y[a];
        for &b in rows.as_slice() {
            quad += if rule.is(Rule::RayQuadGrouping) {
                y[a] * (p.w(a, b) * y[b])
            } else {
                y[a] * p.w(a, b) * y[b]
            };
        }
    }
    (lin, quad)
}
