//! Reports joined, the tally and the tallied solve.

use super::float::{larger, larger_or_nan};
use super::problem::{Lent, Problem};
use super::rule::Rule;
use super::solve::{solve, BoxReport, Outcome};

/// The refusal of a sum too large.
pub const TOO_LARGE: u32 = 13;

/// The refusal of a tally too full.
pub const TALLY_FULL: u32 = 11;

/// Counts and the worst residual of one or more solves.
#[derive(Clone, Copy, Debug)]
pub struct SolveReport {
    pub increments: u32,
    pub iterations: u32,
    pub most_iterations: u32,
    pub rejected: u32,
    pub anchors: u32,
    pub sweeps: u32,
    pub exact_passes: u32,
    pub stopped: u32,
    pub converged: bool,
    pub exact: bool,
    pub residual: f64,
}

/// The report of no solve: the empty tally.
pub const NOTHING: SolveReport = SolveReport {
    increments: 0,
    iterations: 0,
    most_iterations: 0,
    rejected: 0,
    anchors: 0,
    sweeps: 0,
    exact_passes: 0,
    stopped: 0,
    converged: true,
    exact: true,
    residual: 0.0,
};

/// A count's sum, or 13 above 4,294,967,295.
fn count(a: u32, b: u32, rule: Rule) -> Result<u32, u32> {
    match rule {
        Rule::SumWraps => Ok(a.wrapping_add(b)),
        Rule::SumStopsAtLimit => Ok(a.saturating_add(b)),
        Rule::SumLimitRefused => a.checked_add(b).filter(|&s| s < u32::MAX).ok_or(TOO_LARGE),
        _ => a.checked_add(b).ok_or(TOO_LARGE),
    }
}

/// The sum of the rows stopped.
fn stopped_sum(a: u32, b: u32, rule: Rule) -> Result<u32, u32> {
    if rule.is(Rule::StoppedSumFits) {
        return Ok(a.saturating_add(b));
    }
    count(a, b, rule)
}

impl SolveReport {
    /// One increment that goes on as `then` reports.
    pub fn continued(self, then: Self, rule: Rule) -> Result<Self, u32> {
        let iterations = count(self.iterations, then.iterations, rule)?;
        let most = if rule.is(Rule::ContinuedMostLarger) {
            self.most_iterations.max(then.most_iterations)
        } else {
            iterations
        };
        let increments = if rule.is(Rule::ContinuedIncrementsSummed) {
            count(self.increments, then.increments, rule)?
        } else {
            self.increments.max(then.increments)
        };
        Ok(Self {
            increments,
            iterations,
            most_iterations: most,
            rejected: count(self.rejected, then.rejected, rule)?,
            anchors: count(self.anchors, then.anchors, rule)?,
            sweeps: count(self.sweeps, then.sweeps, rule)?,
            exact_passes: count(self.exact_passes, then.exact_passes, rule)?,
            stopped: if rule.is(Rule::ContinuedStoppedLast) {
                then.stopped
            } else {
                stopped_sum(self.stopped, then.stopped, rule)?
            },
            converged: then.converged && (self.converged || !rule.is(Rule::ContinuedConvergedBoth)),
            exact: then.exact && (self.exact || rule.is(Rule::ContinuedExactLast)),
            residual: match rule {
                Rule::ContinuedResidualFirst => self.residual,
                Rule::ContinuedResidualLarger => larger(self.residual, then.residual),
                _ => then.residual,
            },
        })
    }

    /// Two reports together.
    pub fn and(self, other: Self, rule: Rule) -> Result<Self, u32> {
        let most = match rule {
            Rule::AndMostSummed => count(self.most_iterations, other.most_iterations, rule)?,
            _ => self.most_iterations.max(other.most_iterations),
        };
        let (sweeps, passes) = match rule {
            Rule::PassesAddedToSweeps => (other.exact_passes, other.exact_passes),
            _ => (other.sweeps, other.exact_passes),
        };
        Ok(Self {
            increments: count(self.increments, other.increments, rule)?,
            iterations: count(self.iterations, other.iterations, rule)?,
            most_iterations: most,
            rejected: count(self.rejected, other.rejected, rule)?,
            anchors: count(self.anchors, other.anchors, rule)?,
            sweeps: count(self.sweeps, sweeps, rule)?,
            exact_passes: count(self.exact_passes, passes, rule)?,
            stopped: if rule.is(Rule::AndStoppedLast) {
                other.stopped
            } else {
                stopped_sum(self.stopped, other.stopped, rule)?
            },
            converged: if rule.is(Rule::AndConvergedLast) {
                other.converged
            } else {
                self.converged && other.converged
            },
            exact: if rule.is(Rule::AndExactEither) {
                self.exact || other.exact
            } else {
                self.exact && other.exact
            },
            residual: and_residual(self.residual, other.residual, rule),
        })
    }
}

fn and_residual(first: f64, second: f64, rule: Rule) -> f64 {
    match rule {
        Rule::AndResidualFirst => first,
        Rule::AndResidualLast => second,
        Rule::AndResidualNan => larger_or_nan(first, second),
        Rule::AndResidualMinusZero if first == 0.0 && second == 0.0 => -0.0,
        _ => larger(first, second),
    }
}

/// A list joined by `and`, front to back from NOTHING.
pub fn joined(reports: &[SolveReport], rule: Rule) -> Result<SolveReport, u32> {
    if let (Rule::ListFromFirst, Some((first, rest))) = (rule, reports.split_first()) {
        return rest
            .iter()
            .try_fold(*first, |sum, &report| sum.and(report, rule));
    }
    if rule.is(Rule::ListBackToFront) {
        return reports
            .iter()
            .rev()
            .try_fold(NOTHING, |sum, &report| report.and(sum, rule));
    }
    reports
        .iter()
        .try_fold(NOTHING, |sum, &report| sum.and(report, rule))
}

/// Whether the tally has no place for one more solve.
fn tally_full(tally: &SolveReport, rule: Rule) -> bool {
    let (increments, sweeps, passes) = match rule {
        Rule::TallyIncrementsLow => (u32::MAX - 1, 4_294_967_095, 4_294_967_286),
        Rule::TallySweepsHigh => (u32::MAX, 4_294_967_096, 4_294_967_286),
        Rule::TallySweepsLow => (u32::MAX, 4_294_967_094, 4_294_967_286),
        Rule::TallyPassesHigh => (u32::MAX, 4_294_967_095, 4_294_967_287),
        Rule::TallyPassesLow => (u32::MAX, 4_294_967_095, 4_294_967_285),
        _ => (u32::MAX, 4_294_967_095, 4_294_967_286),
    };
    let counted = tally.increments >= increments && !rule.is(Rule::TallyIncrementsHigh);
    let stopped = match rule {
        Rule::TallyStoppedHigh => 4_294_967_264,
        Rule::TallyStoppedLow => 4_294_967_262,
        Rule::TallyStoppedByAdded => u32::MAX,
        _ => 4_294_967_263,
    };
    counted || tally.sweeps > sweeps || tally.exact_passes > passes || tally.stopped > stopped
}

fn any_nan(values: &[f64]) -> bool {
    values.iter().any(|v| v.is_nan())
}

/// Whether a solve of `p` that started from `start` and left `nu` left no NaN.
fn no_nan(p: &Problem, start: &[f64], nu: &[f64], rule: Rule) -> bool {
    let nan = match rule {
        Rule::TakenAsReported => false,
        Rule::TakenByFirstRow => nu.first().is_some_and(|v| v.is_nan()),
        Rule::TakenByLastRow => nu.last().is_some_and(|v| v.is_nan()),
        Rule::TakenByAllRows => !nu.is_empty() && nu.iter().all(|v| v.is_nan()),
        Rule::TakenByInfinite => nu.iter().any(|v| !v.is_finite()),
        Rule::TakenByInput => {
            let slices = [p.w, p.u_free, p.lo, p.hi, p.motion, start];
            p.tolerance.is_nan() || slices.iter().any(|slice| any_nan(slice))
        }
        Rule::TakenByStart => any_nan(start),
        _ => any_nan(nu),
    };
    !nan
}

/// The report of one solve as the tally takes it; `no_nan` says whether no
/// multiplier that it left is NaN.
fn taken(report: &BoxReport, no_nan: bool, rule: Rule) -> SolveReport {
    SolveReport {
        increments: 1,
        iterations: if rule.is(Rule::TallyIterationsOfSweeps) {
            report.sweeps
        } else {
            0
        },
        sweeps: report.sweeps,
        exact_passes: report.exact_passes,
        stopped: if rule.is(Rule::TallyStoppedLost) {
            0
        } else {
            report.stopped
        },
        converged: report.converged && (no_nan || rule.is(Rule::TakenConvergedKept)),
        exact: report.exact && (no_nan || rule.is(Rule::TakenExactKept)),
        residual: report.residual,
        ..NOTHING
    }
}

/// A solve that joins the tally; 5 to 10 first, then 11. A refused one joins
/// nothing.
pub fn tallied(
    p: &Problem,
    lent: &mut Lent,
    tally: &mut SolveReport,
    rule: Rule,
) -> Result<(Outcome, BoxReport), u32> {
    let number = p.refused(lent, rule);
    tallied_by(p, number, lent, tally, rule, |lent| solve(p, lent, rule))
}

/// The same of any solve of p that is refused by `number`, or by none.
pub fn tallied_by(
    p: &Problem,
    number: Option<u32>,
    lent: &mut Lent,
    tally: &mut SolveReport,
    rule: Rule,
    make: impl FnOnce(&mut Lent) -> Result<(Outcome, BoxReport), u32>,
) -> Result<(Outcome, BoxReport), u32> {
    if rule.is(Rule::ElevenBeforeFive) && tally_full(tally, rule) {
        return Err(TALLY_FULL);
    }
    if let Some(number) = number {
        if rule.is(Rule::TallyCountsRefused) {
            tally.increments = tally.increments.saturating_add(1);
        }
        if rule.is(Rule::TakenOfRefused) && any_nan(lent.nu) {
            (tally.converged, tally.exact) = (false, false);
        }
        return Err(number);
    }
    if tally_full(tally, rule) && !rule.is(Rule::ElevenAfterSolve) {
        return Err(TALLY_FULL);
    }
    let start = lent.nu.to_vec();
    let (outcome, mut report) = make(lent)?;
    if tally_full(tally, rule) {
        return Err(TALLY_FULL);
    }
    if rule.is(Rule::TallyWithoutInfeasible) && outcome != Outcome::Solved {
        return Ok((outcome, report));
    }
    let joined = taken(&report, no_nan(p, &start, lent.nu, rule), rule);
    *tally = tally.and(joined, rule)?;
    if rule.is(Rule::TakenInReport) {
        (report.converged, report.exact) = (joined.converged, joined.exact);
    }
    Ok((outcome, report))
}
