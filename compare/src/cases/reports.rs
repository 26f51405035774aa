//! Reports to be joined.

use super::random::Rng;
use crate::reference::report::{SolveReport, NOTHING};

/// Two reports and a list.
#[derive(Clone, Debug)]
pub struct Case {
    pub first: SolveReport,
    pub second: SolveReport,
    pub list: Vec<SolveReport>,
}

type Make = fn(&mut Rng) -> Case;

/// The families by name.
pub const FAMILIES: &[(&str, Make)] = &[
    ("joins/small", small),
    ("joins/limit", limit),
    ("joins/residual", residual),
];

fn report(rng: &mut Rng, count: impl Fn(&mut Rng) -> u32) -> SolveReport {
    if rng.chance(5) {
        return NOTHING;
    }
    SolveReport {
        increments: count(rng),
        iterations: count(rng),
        most_iterations: count(rng),
        rejected: count(rng),
        anchors: count(rng),
        sweeps: count(rng),
        exact_passes: count(rng),
        stopped: count(rng),
        converged: rng.chance(50),
        exact: rng.chance(50),
        residual: rng.unit(),
    }
}

fn case(rng: &mut Rng, count: impl Fn(&mut Rng) -> u32) -> Case {
    let (first, second) = (report(rng, &count), report(rng, &count));
    let length = rng.below(7);
    Case {
        first,
        second,
        list: (0..length).map(|_| report(rng, &count)).collect(),
    }
}

fn small(rng: &mut Rng) -> Case {
    case(rng, |rng| rng.below(50) as u32)
}

/// One count of the pair, and of the list, sums to the limit or next to it;
/// sometimes every count is near a half or at the limit.
fn limit(rng: &mut Rng) -> Case {
    let mut case = small(rng);
    if rng.chance(30) {
        return self::case(rng, |rng| {
            rng.pick(&[0, 1, u32::MAX, u32::MAX - 1, 1 << 31, (1 << 31) - 1])
        });
    }
    let field = rng.below(8);
    let total = u64::from(u32::MAX) + rng.pick(&[0, 0, 1, 2]) - rng.pick(&[0, 1]);
    let second = rng.next() >> rng.between(32, 63) as u32;
    set(
        &mut case.first,
        field,
        (total - second).min(u64::from(u32::MAX)) as u32,
    );
    set(
        &mut case.second,
        field,
        second.min(u64::from(u32::MAX)) as u32,
    );
    if case.list.len() >= 2 {
        let place = rng.below(case.list.len());
        case.list[place] = case.first;
        let other = (place + 1 + rng.below(case.list.len() - 1)) % case.list.len();
        case.list[other] = case.second;
    }
    case
}

fn set(report: &mut SolveReport, field: usize, value: u32) {
    *match field {
        0 => &mut report.increments,
        1 => &mut report.iterations,
        2 => &mut report.most_iterations,
        3 => &mut report.rejected,
        4 => &mut report.anchors,
        5 => &mut report.sweeps,
        6 => &mut report.exact_passes,
        _ => &mut report.stopped,
    } = value;
}

/// NaN residuals, zeros of both signs, infinities and residuals below 0.
fn residual(rng: &mut Rng) -> Case {
    let mut case = small(rng);
    let few = [
        f64::NAN,
        0.0,
        -0.0,
        f64::INFINITY,
        -1.0,
        f64::NEG_INFINITY,
        1e-9,
        -f64::NAN,
    ];
    let mut draw = |report: &mut SolveReport| {
        report.residual = if rng.chance(80) {
            rng.pick(&few)
        } else {
            rng.special()
        };
    };
    draw(&mut case.first);
    draw(&mut case.second);
    case.list.iter_mut().for_each(draw);
    case
}
