//! Where a row stands.

use super::float::EXACT_RESIDUAL;
use super::problem::Problem;
use super::rule::Rule;

/// A row's state; its byte is the value given here.
#[derive(Clone, Copy, PartialEq, Eq, Debug)]
#[repr(u8)]
pub enum State {
    Inside = 0,
    AtLo = 1,
    AtHi = 2,
    Idle = 3,
}

/// The state a multiplier shows: on a finite bound if within 1e-9 of its scale
/// of it, AtLo first; else Inside.
pub fn state_of(p: &Problem, i: usize, nu: f64, rule: Rule) -> State {
    let s = if rule.is(Rule::StateWithoutScale) {
        1.0
    } else {
        p.scale[i]
    };
    let near = |distance: f64, exactly: bool| {
        if exactly {
            distance <= 0.0
        } else if rule.is(Rule::StateStrict) {
            distance < EXACT_RESIDUAL * s
        } else {
            distance <= EXACT_RESIDUAL * s
        }
    };
    let lo_finite = p.lo[i].is_finite() || rule.is(Rule::StateLoInfinite);
    let hi_finite = p.hi[i].is_finite() || rule.is(Rule::StateHiInfinite);
    let at_lo = lo_finite && near(nu - p.lo[i], rule.is(Rule::StateLoExactly));
    let at_hi = hi_finite && near(p.hi[i] - nu, rule.is(Rule::StateHiExactly));
    if at_lo && !(at_hi && rule.is(Rule::AtHiBeforeAtLo)) {
        State::AtLo
    } else if at_hi {
        State::AtHi
    } else {
        State::Inside
    }
}
