//! Reports of solves and their joins.

use crate::calls;
use crate::Refusal;

/// What one solve reports.
#[derive(Clone, Copy, Debug, PartialEq)]
pub struct BoxReport {
    /// Sweeps made, at most 200.
    pub sweeps: u32,
    /// Exact passes made.
    pub exact_passes: u32,
    /// Whether it stopped on its own tests and not at 200 sweeps.
    pub converged: bool,
    /// Whether an exact pass found the answer.
    pub exact: bool,
    /// The largest natural residual over the rows that act; never NaN.
    pub residual: f64,
    /// How many rows are Idle.
    pub idle: u32,
    /// How many row updates the last sweep stopped at a bound. Not the rows whose
    /// state is AtLo or AtHi: a row may stand on its bound without being stopped, and
    /// a row that was stopped may end elsewhere.
    pub stopped: u32,
}

/// What one or many solves report, joined.
#[derive(Clone, Copy, Debug, PartialEq)]
pub struct SolveReport {
    pub increments: u32,
    pub iterations: u32,
    pub most_iterations: u32,
    pub rejected: u32,
    pub anchors: u32,
    pub sweeps: u32,
    pub exact_passes: u32,
    pub stopped: u32,
    pub converged: bool,
    pub exact: bool,
    pub residual: f64,
}

impl Default for SolveReport {
    fn default() -> Self {
        Self::NOTHING
    }
}

/// How many counts a report has.
pub(crate) const COUNTS: usize = 10;

impl SolveReport {
    /// The report of no solve.
    pub const NOTHING: Self = SolveReport {
        increments: 0,
        iterations: 0,
        most_iterations: 0,
        rejected: 0,
        anchors: 0,
        sweeps: 0,
        exact_passes: 0,
        stopped: 0,
        converged: true,
        exact: true,
        residual: 0.0,
    };

    /// This report and another, as one procedure's.
    pub fn and(self, other: Self) -> Result<Self, Refusal> {
        self.joined(other, calls::and)
    }

    /// One increment begun as this reports and gone on as `then` reports.
    pub fn continued(self, then: Self) -> Result<Self, Refusal> {
        self.joined(then, calls::continued)
    }

    fn joined(
        self,
        other: Self,
        join: fn(calls::Report, calls::Report, &mut [u32], &mut [f64]) -> u32,
    ) -> Result<Self, Refusal> {
        let (mut counts, mut residual) = ([0; COUNTS], [0.0]);
        let (a, b) = (self.counts(), other.counts());
        let number = join(
            (&a, self.residual),
            (&b, other.residual),
            &mut counts,
            &mut residual,
        );
        match number {
            0 => Ok(Self::of(&counts, residual[0])),
            _ => Err(Refusal::of(number)),
        }
    }

    pub(crate) fn counts(&self) -> [u32; COUNTS] {
        [
            self.increments,
            self.iterations,
            self.most_iterations,
            self.rejected,
            self.anchors,
            self.sweeps,
            self.exact_passes,
            self.converged.into(),
            self.exact.into(),
            self.stopped,
        ]
    }

    pub(crate) fn of(counts: &[u32; COUNTS], residual: f64) -> Self {
        let [increments, iterations, most_iterations, rejected, anchors, sweeps, exact_passes, converged, exact, stopped] =
            *counts;
        SolveReport {
            increments,
            iterations,
            most_iterations,
            rejected,
            anchors,
            sweeps,
            exact_passes,
            stopped,
            converged: converged != 0,
            exact: exact != 0,
            residual,
        }
    }
}
