//! The solve of a symmetric matrix that comes as its lower triangle by rows:
//! the solve of the mirrored matrix.

use super::problem::{Lent, Problem};
use super::report::{tallied_by, SolveReport};
use super::rule::Rule;
use super::solve::{solve, BoxReport, Outcome};

/// How many values the first i rows of a triangle have.
pub fn row_start(i: usize) -> usize {
    i * (i + 1) / 2
}

/// Where the value of row i and column j stands, j at most i.
fn place(n: usize, i: usize, j: usize, rule: Rule) -> usize {
    match rule {
        // row j of the upper triangle begins after rows of n, n - 1, .. values
        Rule::TriangleUpper => row_start(n) - row_start(n - j) + (i - j),
        Rule::TriangleRowsEarly => row_start(i.saturating_sub(1)) + j,
        Rule::TriangleDiagonalLast if i == j => row_start(n.saturating_sub(1)) + i,
        Rule::TriangleDiagonalLast => row_start(i - 1) + j,
        _ => row_start(i) + j,
    }
}

/// The mirrored matrix, n rows of n values. A value that the triangle lacks is 0.
pub fn mirrored(t: &[f64], n: usize, rule: Rule) -> Vec<f64> {
    let mut w = vec![0.0; n * n];
    for i in 0..n {
        for j in 0..=i {
            let v = t.get(place(n, i, j, rule)).copied().unwrap_or(0.0);
            if i == j || !rule.is(Rule::TriangleBelowZero) {
                w[i * n + j] = v;
            }
            if i == j || !rule.is(Rule::TriangleAboveZero) {
                w[j * n + i] = v;
            }
        }
    }
    w
}

/// Whether 16 refuses a triangle of so many values.
fn wrong(len: usize, n: usize, rule: Rule) -> bool {
    let right = row_start(n);
    let taken = match rule {
        Rule::TriangleShort => len + 1 == right,
        Rule::TriangleLong => len == right + 1,
        Rule::TriangleSquare => len == n * n,
        _ => false,
    };
    len != right && !taken
}

/// The number with which a call whose triangle is `t` is refused: that of the
/// mirrored problem `whole`, with 16 in the place of 6.
fn refused(t: &[f64], whole: &Problem, lent: &Lent, rule: Rule) -> Option<u32> {
    let other = whole.refused(lent, rule);
    if !wrong(t.len(), whole.n(), rule) {
        return other;
    }
    let first = match rule {
        Rule::TriangleBeforeFive => None,
        Rule::TriangleAfterSeven => other.filter(|&k| k <= 7),
        Rule::TriangleAfterTen => other,
        _ => other.filter(|&k| k == 5),
    };
    let sixteen = if rule.is(Rule::TriangleSix) { 6 } else { 16 };
    Some(first.unwrap_or(sixteen))
}

/// The solve with `p.w` a triangle.
pub fn solve_triangle(
    p: &Problem,
    lent: &mut Lent,
    rule: Rule,
) -> Result<(Outcome, BoxReport), u32> {
    let w = mirrored(p.w, p.n(), rule);
    let whole = Problem { w: &w, ..*p };
    if let Some(number) = refused(p.w, &whole, lent, rule) {
        return Err(number);
    }
    let answer = solve(&whole, lent, rule);
    if answer.is_ok() && rule.is(Rule::TriangleMirrorsBeyond) {
        for (to, from) in lent.workspace.iter_mut().skip(2_304).zip(&w) {
            *to = *from;
        }
    }
    answer
}

/// The same joining a tally: its refusals first, then 11.
pub fn tallied_triangle(
    p: &Problem,
    lent: &mut Lent,
    tally: &mut SolveReport,
    rule: Rule,
) -> Result<(Outcome, BoxReport), u32> {
    let w = mirrored(p.w, p.n(), rule);
    let whole = Problem { w: &w, ..*p };
    let number = refused(p.w, &whole, lent, rule);
    tallied_by(&whole, number, lent, tally, rule, |lent| {
        solve_triangle(p, lent, rule)
    })
}
