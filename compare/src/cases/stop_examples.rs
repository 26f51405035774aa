//! The worked examples of the rows that the last sweep stops, from
//! examples/stops.txt, which says how they are written.

use super::exact_examples::{body, listed, mistake, repeated, Mistake};
use super::problem::Owned;
use crate::reference::solve::{BoxReport, Cause, Outcome};
use std::sync::OnceLock;

const TEXT: &str = include_str!("../../examples/stops.txt");

/// A problem and what its solve must answer. The tests hold the answers against
/// the reference.
#[cfg_attr(not(test), allow(dead_code))]
pub struct Example {
    pub number: usize,
    pub problem: Owned,
    pub outcome: Outcome,
    pub report: BoxReport,
    pub states: Vec<u8>,
    pub nu: Vec<f64>,
    pub rows: Vec<usize>,
}

#[cfg_attr(not(test), allow(dead_code))]
#[derive(Default)]
pub struct Examples {
    pub solves: Vec<Example>,
    pub mistakes: Vec<Mistake>,
}

/// All examples.
pub fn examples() -> &'static Examples {
    static EXAMPLES: OnceLock<Examples> = OnceLock::new();
    EXAMPLES.get_or_init(|| parsed().expect("examples/stops.txt is as it says"))
}

fn parsed() -> Option<Examples> {
    let mut examples = Examples::default();
    let mut lines = body(TEXT);
    while let Some(line) = lines.next() {
        if let Some(rest) = line.strip_prefix("mistake ") {
            examples.mistakes.push(mistake(rest)?);
            continue;
        }
        let (number, _) = line.split_once(" # ")?;
        let problem = problem(lines.next()?.strip_prefix("  in ")?)?;
        let answer = lines.next()?.strip_prefix("  out ")?;
        examples
            .solves
            .push(example(number.parse().ok()?, problem, answer)?);
    }
    Some(examples)
}

/// Values by their bits, in runs.
fn values(text: &str) -> Option<Vec<f64>> {
    let mut values = Vec::new();
    for part in listed(text, " ") {
        let (times, bits) = repeated(part)?;
        let value = f64::from_bits(u64::from_str_radix(bits, 16).ok()?);
        values.resize(values.len() + times, value);
    }
    Some(values)
}

pub(super) fn problem(text: &str) -> Option<Owned> {
    let (sizes, numbers) = text.split_once(" numbers ")?;
    let sizes: Vec<&str> = sizes.split(' ').collect();
    let ["n", n, "coords", coords] = sizes[..] else {
        return None;
    };
    let (n, coords): (usize, usize) = (n.parse().ok()?, coords.parse().ok()?);
    let mut values = values(numbers)?;
    let tolerance = values.pop()?;
    let mut rest = values.into_iter();
    let mut take = |count: usize| rest.by_ref().take(count).collect::<Vec<f64>>();
    let problem = Owned {
        w: take(n * n),
        u_free: take(n),
        lo: take(n),
        hi: take(n),
        scale: take(n),
        nu: take(n),
        motion: take(coords * n),
        tolerance,
    };
    (problem.motion.len() == coords * n && rest.next().is_none()).then_some(problem)
}

pub(super) fn example(number: usize, problem: Owned, text: &str) -> Option<Example> {
    let (report, rest) = text.split_once(" states ")?;
    let (states, rest) = rest.split_once(" nu ")?;
    let (nu, rows) = rest.split_once(" rows ")?;
    let rows = listed(rows, " ").map(|row| row.parse().ok());
    let rows: Vec<usize> = rows.collect::<Option<_>>()?;
    let (outcome, report) = told(report, rows.len())?;
    Some(Example {
        number,
        problem,
        outcome,
        report,
        states: states
            .chars()
            .filter_map(|c| "ILHZ".find(c))
            .map(|s| s as u8)
            .collect(),
        nu: values(nu)?,
        rows,
    })
}

/// The outcome and the report.
fn told(text: &str, listed: usize) -> Option<(Outcome, BoxReport)> {
    let words: Vec<&str> = text.split(' ').collect();
    let [outcome, "sweeps", sweeps, "passes", passes, "converged", converged, "exact", exact, "idle", idle, "stopped", stopped, "residual", residual] =
        words[..]
    else {
        return None;
    };
    let outcome = match outcome {
        "solved" => Outcome::Solved,
        "growth" => Outcome::Infeasible(Cause::Growth, listed),
        "pass" => Outcome::Infeasible(Cause::Pass, listed),
        "sweep" => Outcome::Infeasible(Cause::Sweep, listed),
        _ => return None,
    };
    let report = BoxReport {
        sweeps: sweeps.parse().ok()?,
        exact_passes: passes.parse().ok()?,
        converged: converged == "1",
        exact: exact == "1",
        residual: f64::from_bits(u64::from_str_radix(residual, 16).ok()?),
        idle: idle.parse().ok()?,
        stopped: stopped.parse().ok()?,
    };
    Some((outcome, report))
}
