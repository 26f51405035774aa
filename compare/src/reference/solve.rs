//! The solve: start, sweeps with growth, exact passes, motion test, residual
//! test and ray, and what is left in the lent buffers.

use super::float::{clamp, clamp_sided, larger, larger_or_nan, Side, DIVERGENCE, EXACT_RESIDUAL};
use super::pass::{Pass, PassEnd};
use super::problem::{Lent, Problem, MOST_ROWS, WORKSPACE};
use super::ray::{ray, RowList};
use super::rule::Rule;
use super::state::{state_of, State};

/// The most sweeps.
pub const SWEEP_CAP: u32 = 200;

/// What a solve reports.
#[derive(Clone, Copy, PartialEq, Debug, Default)]
pub struct BoxReport {
    pub sweeps: u32,
    pub exact_passes: u32,
    pub converged: bool,
    pub exact: bool,
    pub residual: f64,
    pub idle: u32,
    /// Rows whose update the last sweep stopped at a bound.
    pub stopped: u32,
}

/// What found that no motion meets every row.
#[derive(Clone, Copy, PartialEq, Eq, Debug)]
pub enum Cause {
    Growth,
    Pass,
    Sweep,
}

/// How an accepted solve ended. An infeasible one gives the number of rows in
/// the front of the row list.
#[derive(Clone, Copy, PartialEq, Eq, Debug)]
pub enum Outcome {
    Solved,
    Infeasible(Cause, usize),
}

/// How the sweeps ended.
enum Ending {
    Exact,
    Sweeps,
    Infeasible(Cause, RowList),
}

/// A solve on its way.
struct Run<'a> {
    p: &'a Problem<'a>,
    rule: Rule,
    nu: [f64; MOST_ROWS],
    before: [f64; MOST_ROWS],
    states: [State; MOST_ROWS],
    report: BoxReport,
}

/// Solves, or gives the number of the refusal and writes nothing.
pub fn solve(p: &Problem, lent: &mut Lent, rule: Rule) -> Result<(Outcome, BoxReport), u32> {
    if let Some(number) = p.refused(lent, rule) {
        if rule.is(Rule::RefusalClampsMultipliers) && number == 10 {
            for (i, v) in lent.nu.iter_mut().enumerate() {
                *v = clamp(*v, p.lo[i], p.hi[i], rule);
            }
        }
        return Err(number);
    }
    if rule.is(Rule::RefusesAll) {
        return Err(5);
    }
    let mut run = Run::start(p, lent.nu, rule);
    if run.all_idle() {
        run.report.converged = true;
        run.report.exact = true;
        run.leave(lent, &RowList::empty());
        return Ok((Outcome::Solved, run.report));
    }
    let ending = run.sweeps();
    Ok(run.finish(ending, lent))
}

impl<'a> Run<'a> {
    /// Marks the Idle rows and clamps the multipliers.
    fn start(p: &'a Problem<'a>, nu: &[f64], rule: Rule) -> Self {
        let mut run = Run {
            p,
            rule,
            nu: [0.0; MOST_ROWS],
            before: [0.0; MOST_ROWS],
            states: [State::Inside; MOST_ROWS],
            report: BoxReport::default(),
        };
        for i in 0..p.n() {
            let idle = p.idle(i, rule);
            let from = if idle && !rule.is(Rule::IdleMultiplierKept) {
                0.0
            } else {
                nu[i]
            };
            let (at, side) = clamp_sided(from, p.lo[i], p.hi[i], rule);
            run.nu[i] = at;
            let counted = rule.is(Rule::StartStopped) || (idle && rule.is(Rule::IdleStopped));
            run.report.stopped += u32::from(counted && side != Side::None);
            if rule.is(Rule::StartNotClamped) && !idle {
                run.nu[i] = nu[i];
            }
            if idle {
                run.states[i] = State::Idle;
                run.report.idle += 1;
            }
        }
        run
    }

    fn all_idle(&self) -> bool {
        if self.rule.is(Rule::AllIdleAlways) {
            return true;
        }
        let all = self.states[..self.p.n()].iter().all(|&s| s == State::Idle);
        all && !(self.rule.is(Rule::AllIdleSweeps) && self.p.n() > 0)
    }

    fn sweeps(&mut self) -> Ending {
        let cap = match self.rule {
            Rule::CapLower => SWEEP_CAP - 1,
            Rule::CapHigher => SWEEP_CAP + 1,
            Rule::OneSweepRepeated => 1,
            _ => SWEEP_CAP,
        };
        for sweep in 1..=cap {
            if let Some(ending) = self.turn(sweep) {
                return ending;
            }
        }
        Ending::Sweeps
    }

    /// One sweep and its tests.
    fn turn(&mut self, sweep: u32) -> Option<Ending> {
        self.sweep();
        self.report.sweeps = sweep;
        let grown = self.grown();
        if !grown.as_slice().is_empty() && !self.rule.is(Rule::GrowthAfterPass) {
            return Some(Ending::Infeasible(Cause::Growth, grown));
        }
        if checkpoint(sweep, self.rule) {
            self.report.exact_passes += 1;
            if let Some(ending) = self.pass() {
                return Some(ending);
            }
        }
        if !grown.as_slice().is_empty() {
            return Some(Ending::Infeasible(Cause::Growth, grown));
        }
        if sweep == SWEEP_CAP && self.rule.is(Rule::NoTestsAtCap) {
            return None;
        }
        self.stopped()
    }

    /// Updates the rows not Idle, in order.
    fn sweep(&mut self) {
        let p = self.p;
        let n = p.n();
        self.before = self.nu;
        let kept = matches!(
            self.rule,
            Rule::StoppedOfAllSweeps | Rule::StartStopped | Rule::IdleStopped
        );
        if !(kept && self.report.sweeps == 0 || self.rule.is(Rule::StoppedOfAllSweeps)) {
            self.report.stopped = 0;
        }
        for i in 0..n {
            if self.states[i] == State::Idle {
                continue;
            }
            let from = if self.rule.is(Rule::SweepFromBefore) {
                &self.before
            } else {
                &self.nu
            };
            let u = p.row_sum(i, &from[..n], self.rule);
            let step = if self.rule.is(Rule::SweepByProduct) {
                u * (1.0 / p.w(i, i))
            } else {
                u / p.w(i, i)
            };
            let from_row = self.nu[i] - step;
            let (to, side) = clamp_sided(from_row, p.lo[i], p.hi[i], self.rule);
            self.nu[i] = to;
            let stopped = match self.rule {
                Rule::StoppedLowOnly => side == Side::Low,
                Rule::StoppedByBoundsReached => to == p.lo[i] || to == p.hi[i],
                Rule::StoppedByOldSums => {
                    let u = p.row_sum(i, &self.before[..n], self.rule);
                    let v = self.before[i] - u / p.w(i, i);
                    clamp_sided(v, p.lo[i], p.hi[i], self.rule).1 != Side::None
                }
                _ => side != Side::None,
            };
            self.report.stopped += u32::from(stopped);
        }
    }

    /// The rows past a million scales, Idle ones included.
    fn grown(&self) -> RowList {
        let mut rows = RowList::empty();
        for i in 0..self.p.n() {
            let (nu, s) = (self.nu[i], self.p.scale[i]);
            let past = match self.rule {
                Rule::GrowthOfActingOnly => {
                    self.states[i] != State::Idle && nu.abs() > DIVERGENCE * s
                }
                Rule::GrowthAtMillion => nu.abs() >= DIVERGENCE * s,
                Rule::GrowthByQuotient => nu.abs() / s > DIVERGENCE,
                Rule::GrowthUpwardOnly => nu > DIVERGENCE * s,
                Rule::GrowthWithoutScale => nu.abs() > DIVERGENCE,
                Rule::GrowthAtNan => nu.is_nan() || nu.abs() > DIVERGENCE * s,
                Rule::GrowthAtSweepOne => true,
                _ => nu.abs() > DIVERGENCE * s,
            };
            if past {
                rows.push(i);
            }
        }
        rows
    }

    fn pass(&mut self) -> Option<Ending> {
        let n = self.p.n();
        let mut pass = Pass::start(self.p, &self.nu[..n], &mut self.states[..n], self.rule);
        let end = pass.run();
        let trial = pass.trial;
        match end {
            PassEnd::Found => {
                self.nu[..n].copy_from_slice(&trial[..n]);
                Some(Ending::Exact)
            }
            PassEnd::Infeasible(rows) => {
                if self.rule.is(Rule::InfeasibleLeavesTrial) {
                    self.nu[..n].copy_from_slice(&trial[..n]);
                }
                Some(Ending::Infeasible(Cause::Pass, rows))
            }
            PassEnd::Failed => {
                if self.rule.is(Rule::FailedLeavesTrial) {
                    self.nu[..n].copy_from_slice(&trial[..n]);
                }
                None
            }
        }
    }

    /// The motion test, the residual test and the ray.
    fn stopped(&mut self) -> Option<Ending> {
        let moved = self.moved();
        let still = match self.rule {
            Rule::MotionStrict => moved < self.p.tolerance,
            Rule::MotionNotTested => true,
            _ => moved <= self.p.tolerance,
        };
        if !still {
            return None;
        }
        let residual = self.residual();
        let met = match self.rule {
            Rule::ConvergedStrict => residual < EXACT_RESIDUAL,
            _ => residual <= EXACT_RESIDUAL,
        };
        if met {
            self.report.converged = true;
            return Some(Ending::Sweeps);
        }
        let mut y = [0.0; MOST_ROWS];
        for (i, moved) in y.iter_mut().enumerate().take(self.p.n()) {
            *moved = self.nu[i] - self.before[i];
        }
        if self.rule.is(Rule::NoRayAfterSweep) {
            return None;
        }
        let rows = ray(self.p, &self.states, &mut y, self.rule)?;
        Some(Ending::Infeasible(Cause::Sweep, rows))
    }

    /// How far the last sweep moved the coordinate that it moved farthest.
    fn moved(&self) -> f64 {
        let n = self.p.n();
        let mut moved = 0.0;
        for row in self.p.motion.chunks_exact(n) {
            let mut s = 0.0;
            for i in 0..n {
                s += row[i] * (self.nu[i] - self.before[i]);
            }
            moved = match self.rule {
                Rule::MotionNanKept => larger_or_nan(moved, s.abs()),
                Rule::MotionSummed => moved + s.abs(),
                Rule::MotionSigned => larger(moved, s),
                Rule::MotionLastCoordinate => s.abs(),
                _ => larger(moved, s.abs()),
            };
        }
        moved
    }

    /// The largest natural residual over the rows not Idle, from 0; a NaN row
    /// adds nothing.
    fn residual(&self) -> f64 {
        let p = self.p;
        let n = p.n();
        let mut worst = 0.0;
        for i in 0..n {
            if self.states[i] == State::Idle && !self.rule.is(Rule::ResidualOfIdle) {
                continue;
            }
            let u = p.row_sum(i, &self.nu[..n], self.rule);
            let r = p.natural(i, self.nu[i], u, self.rule);
            worst = if self.rule.is(Rule::ResidualOfNanRow) {
                larger_or_nan(worst, r)
            } else {
                larger(worst, r)
            };
        }
        worst
    }

    /// The report's last fields, the states and what is left in the buffers.
    fn finish(mut self, ending: Ending, lent: &mut Lent) -> (Outcome, BoxReport) {
        self.report.residual = self.residual();
        let mut shown = false;
        let (outcome, rows) = match ending {
            Ending::Exact => {
                self.report.converged = true;
                self.report.exact = true;
                shown |= self.rule.is(Rule::StatesShownWhenExact);
                (Outcome::Solved, RowList::empty())
            }
            Ending::Sweeps => {
                shown |= !self.rule.is(Rule::StatesNeverShown);
                (Outcome::Solved, RowList::empty())
            }
            Ending::Infeasible(cause, rows) => {
                shown |= self.rule.is(Rule::StatesShownWhenInfeasible);
                (Outcome::Infeasible(cause, rows.as_slice().len()), rows)
            }
        };
        if shown {
            self.show_states();
        }
        if self.rule.is(Rule::StoppedByStates) {
            let on = |s: &&State| matches!(s, State::AtLo | State::AtHi);
            self.report.stopped = self.states[..self.p.n()].iter().filter(on).count() as u32;
        }
        if self.rule.is(Rule::StoppedNoneWhenExact) && self.report.exact {
            self.report.stopped = 0;
        }
        self.report.sweeps += u32::from(self.rule.is(Rule::SweepsInvented));
        self.report.exact_passes += u32::from(self.rule.is(Rule::PassesInvented));
        self.leave(lent, &rows);
        (outcome, self.report)
    }

    /// The states that the multipliers show.
    fn show_states(&mut self) {
        for i in 0..self.p.n() {
            if self.states[i] != State::Idle {
                self.states[i] = state_of(self.p, i, self.nu[i], self.rule);
            }
        }
    }

    /// Writes the multipliers, the states and the rows into the lent buffers'
    /// fronts.
    fn leave(&self, lent: &mut Lent, rows: &RowList) {
        let n = self.p.n();
        if !self.rule.is(Rule::MultipliersNotWritten) {
            lent.nu[..n].copy_from_slice(&self.nu[..n]);
        }
        for (byte, state) in lent.states.iter_mut().zip(&self.states[..n]) {
            *byte = *state as u8;
        }
        for (place, row) in lent.rows.iter_mut().zip(rows.as_slice()) {
            *place = *row;
        }
        if self.rule.is(Rule::RestOfStatesCleared) {
            lent.states[n..].fill(0);
        }
        if self.rule.is(Rule::RestOfRowsCleared) {
            lent.rows[rows.as_slice().len()..].fill(0);
        }
        if self.rule.is(Rule::WorkspaceWrittenPast) && lent.workspace.len() > WORKSPACE {
            lent.workspace[WORKSPACE] = 0.0;
        }
    }
}

/// Whether an exact pass is made after this sweep: 1, 2, 4 .. 128 and 200.
fn checkpoint(sweep: u32, rule: Rule) -> bool {
    match rule {
        Rule::NoPassAtCap if sweep == SWEEP_CAP => false,
        Rule::NoPassAt128 if sweep == 128 => false,
        Rule::PassAtThree if sweep == 3 => true,
        _ => sweep.is_power_of_two() || sweep == SWEEP_CAP,
    }
}

/// The rows stopped, counted a second way: the same solve by sweeps alone up to
/// the one before its last, then each row of the last one held against its
/// bounds. `nu` are the multipliers as lent and `sweeps` those reported.
pub fn stopped_again(p: &Problem, nu: &[f64], sweeps: u32) -> u32 {
    if sweeps == 0 {
        return 0;
    }
    let n = p.n();
    let mut run = Run::start(p, nu, Rule::None);
    for _ in 1..sweeps {
        run.sweep();
    }
    let before = run.nu;
    run.sweep();
    let mut stopped = 0;
    for i in 0..n {
        // the new multipliers of the rows before it, the old ones from it on
        let mut midway = before;
        midway[..i].copy_from_slice(&run.nu[..i]);
        let v = before[i] - p.row_sum(i, &midway[..n], Rule::None) / p.w(i, i);
        let past = v < p.lo[i] || p.hi[i] < v;
        stopped += u32::from(run.states[i] != State::Idle && past);
    }
    stopped
}
