//! The problem, its refusals 5 to 10, and the sums over its rows.

use super::float::{clamp, sum, Order};
use super::rule::Rule;

/// The most rows.
pub const MOST_ROWS: usize = 32;

/// The most motion values.
pub const MOST_MOTION: usize = 2_048;

/// The fewest values of a workspace.
pub const WORKSPACE: usize = 2_304;

/// One box problem. Its n is the length of `u_free`.
#[derive(Clone, Copy)]
pub struct Problem<'a> {
    pub w: &'a [f64],
    pub u_free: &'a [f64],
    pub lo: &'a [f64],
    pub hi: &'a [f64],
    pub scale: &'a [f64],
    pub motion: &'a [f64],
    pub tolerance: f64,
}

/// The buffers lent to one solve.
pub struct Lent<'a> {
    pub nu: &'a mut [f64],
    pub workspace: &'a mut [f64],
    pub states: &'a mut [u8],
    pub rows: &'a mut [usize],
}

impl Problem<'_> {
    pub fn n(&self) -> usize {
        self.u_free.len()
    }

    /// W's entry in row i and column j.
    pub fn w(&self, i: usize, j: usize) -> f64 {
        self.w[i * self.n() + j]
    }

    /// Whether the row's diagonal is NaN or at most 0.
    pub fn idle(&self, i: usize, rule: Rule) -> bool {
        let w = self.w(i, i);
        match rule {
            Rule::IdleOnlyAtZero => w == 0.0,
            Rule::IdleOnlyBelowZero => w.is_nan() || w < 0.0,
            Rule::IdleNotAtNan => w <= 0.0,
            _ => w.is_nan() || w <= 0.0,
        }
    }

    /// u_i: u_free_i, then + W_ij nu_j for j rising, Idle columns included.
    pub fn row_sum(&self, i: usize, nu: &[f64], rule: Rule) -> f64 {
        let n = self.n();
        let order = Order::of(rule, Rule::RowSumDownward, Rule::RowSumFused);
        let pair = |j: usize| {
            if rule.is(Rule::RowSumWithoutIdle) && self.idle(j, rule) {
                return (0.0, 0.0);
            }
            (self.w(i, j), nu[j])
        };
        if rule.is(Rule::RowSumFreeLast) {
            return sum(0.0, 0, n, order, pair) + self.u_free[i];
        }
        sum(self.u_free[i], 0, n, order, pair)
    }

    /// The natural residual of row i with its row sum u:
    /// |nu_i - clamp(nu_i - u/W_ii)| / scale_i.
    pub fn natural(&self, i: usize, nu: f64, u: f64, rule: Rule) -> f64 {
        let target = clamp(nu - u / self.w(i, i), self.lo[i], self.hi[i], rule);
        (nu - target).abs() / self.scale[i]
    }

    /// The number of the first of 5 to 10 that holds, in order.
    pub fn refused(&self, lent: &Lent, rule: Rule) -> Option<u32> {
        let tests: [(u32, bool); 6] = [
            (5, self.too_large(rule)),
            (6, self.w.len() != self.n().wrapping_mul(self.n())),
            (7, self.uneven(lent.nu.len(), rule)),
            (8, self.scale.iter().any(|&s| !scale_taken(s, rule))),
            (9, self.motion_uneven(rule)),
            (10, self.lent_short(lent, rule)),
        ];
        let order: [usize; 6] = match rule {
            Rule::SixBeforeFive => [1, 0, 2, 3, 4, 5],
            Rule::SevenBeforeSix => [0, 2, 1, 3, 4, 5],
            Rule::EightBeforeSeven => [0, 1, 3, 2, 4, 5],
            Rule::NineBeforeEight => [0, 1, 2, 4, 3, 5],
            Rule::TenBeforeNine => [0, 1, 2, 3, 5, 4],
            _ => [0, 1, 2, 3, 4, 5],
        };
        order
            .iter()
            .map(|&k| tests[k])
            .find(|&(_, holds)| holds)
            .map(|(number, _)| number)
    }

    fn too_large(&self, rule: Rule) -> bool {
        let rows = if rule.is(Rule::RowLimit) {
            MOST_ROWS - 1
        } else {
            MOST_ROWS
        };
        let motion = match rule {
            Rule::MotionLimitLow => MOST_MOTION - 1,
            Rule::MotionLimitHigh => MOST_MOTION + 32,
            _ => MOST_MOTION,
        };
        self.n() > rows || self.motion.len() > motion
    }

    fn uneven(&self, nu: usize, rule: Rule) -> bool {
        let n = self.n();
        let wrong = |len: usize| {
            if rule.is(Rule::LongSlicesTaken) {
                len < n
            } else {
                len != n
            }
        };
        wrong(self.lo.len())
            || wrong(self.hi.len())
            || wrong(self.scale.len())
            || (nu != n && !(rule.is(Rule::LongSlicesTaken) && nu > n))
    }

    fn motion_uneven(&self, rule: Rule) -> bool {
        match self.n() {
            0 => rule.is(Rule::NineAtNoRows) && !self.motion.is_empty(),
            n => !self.motion.len().is_multiple_of(n),
        }
    }

    fn lent_short(&self, lent: &Lent, rule: Rule) -> bool {
        let workspace = match rule {
            Rule::WorkspaceLimitLow => WORKSPACE - 1,
            Rule::WorkspaceLimitHigh => WORKSPACE + 1,
            _ => WORKSPACE,
        };
        let most = if rule.is(Rule::ListsOfMostRows) {
            MOST_ROWS
        } else {
            self.n()
        };
        lent.workspace.len() < workspace
            || lent.states.len() < most
            || (lent.rows.len() < most && !rule.is(Rule::RowListUnchecked))
    }
}

/// Whether a scale is finite and above 0.
fn scale_taken(s: f64, rule: Rule) -> bool {
    match rule {
        Rule::ScaleZeroTaken => s >= 0.0 && s.is_finite(),
        Rule::ScaleInfiniteTaken => s > 0.0,
        Rule::ScaleNanTaken => s.is_nan() || (s > 0.0 && s.is_finite()),
        _ => s > 0.0 && s.is_finite(),
    }
}
