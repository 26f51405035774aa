//! Triangles: the lower triangle of every family's matrix, and lengths.

use std::sync::OnceLock;

use super::lengths;
use super::random::Rng;
use super::solve::{self, Case};
use crate::reference::rule::Rule;
use crate::reference::triangle::{mirrored, row_start};

/// A triangle as it is lent in W's place, and the same call with the mirrored
/// matrix, which is the original's.
pub struct Pair {
    pub sent: Case,
    pub mirrored: Case,
}

impl Pair {
    /// The call with this triangle.
    fn of(mut case: Case, t: Vec<f64>) -> Self {
        let n = case.problem.n();
        let mut whole = case.clone();
        whole.problem.w = mirrored(&t, n, Rule::None);
        case.problem.w = t;
        Pair {
            sent: case,
            mirrored: whole,
        }
    }
}

/// Each family's name with that of the solve's family whose matrices it takes.
fn names() -> &'static [(&'static str, &'static str)] {
    static NAMES: OnceLock<Vec<(&str, &str)>> = OnceLock::new();
    NAMES.get_or_init(|| {
        solve::families()
            .into_iter()
            .map(|name| (&*name.replacen("solve/", "triangle/", 1).leak(), name))
            .collect()
    })
}

pub fn families() -> Vec<&'static str> {
    names().iter().map(|&(name, _)| name).collect()
}

/// The lower triangle by rows of a matrix; what the matrix lacks is 1.
fn lower(w: &[f64], n: usize) -> Vec<f64> {
    (0..n)
        .flat_map(|i| (0..=i).map(move |j| i * n + j))
        .map(|place| w.get(place).copied().unwrap_or(1.0))
        .collect()
}

pub fn case(family: &str, rng: &mut Rng) -> Option<Pair> {
    let &(_, name) = names().iter().find(|&&(name, _)| name == family)?;
    of_family(name, rng)
}

/// The lower triangle of a case's matrix.
pub fn of_case(case: Case) -> Pair {
    let t = lower(&case.problem.w, case.problem.n());
    Pair::of(case, t)
}

/// A triangle from a family of the solve's.
pub fn of_family(name: &str, rng: &mut Rng) -> Option<Pair> {
    let case = solve::case(name, rng)?;
    let n = case.problem.n();
    let mut t = lower(&case.problem.w, n);
    if name == lengths::SOLVE {
        t.resize(length(rng, n), 1.0);
    }
    Some(Pair::of(case, t))
}

/// A length of the triangle, most often wrong; the other lengths may be too.
fn length(rng: &mut Rng, n: usize) -> usize {
    let right = row_start(n);
    rng.pick(&[
        right,
        right,
        right,
        right + 1,
        right.saturating_sub(1),
        n * n,
        n,
        row_start(n.saturating_sub(1)),
        row_start(n + 1),
        0,
    ])
}
