//! Least norm: column-pivoted Householder with the first of equal columns,
//! the rank, reflectors from the right, back substitution, unpermute.

use super::float::{sum, Order};
use super::rule::Rule;

/// The most rows and the most columns.
pub const MOST: usize = 32;

/// The fewest values of a workspace.
pub const WORKSPACE: usize = 1_056;

/// How small a diagonal may be beside the first before it no longer counts.
const RANK_TOLERANCE: f64 = 1e-11;

/// The refusal's number.
pub const REFUSED: u32 = 12;

/// The buffers lent to one call. A is m rows of n.
pub struct Lent<'a> {
    pub a: &'a mut [f64],
    pub b: &'a mut [f64],
    pub x: &'a mut [f64],
    pub workspace: &'a mut [f64],
}

/// The rank, with x, what is left in a and what is left in b in the buffers;
/// or 12, and then nothing is written.
pub fn least_norm(lent: Lent, m: usize, n: usize, rule: Rule) -> Result<usize, u32> {
    let limit = if rule.is(Rule::LeastNormLimit) {
        MOST + 1
    } else {
        MOST
    };
    let workspace = if rule.is(Rule::LeastNormWorkspaceShort) {
        WORKSPACE - 1
    } else {
        WORKSPACE
    };
    if m > limit
        || n > limit
        || lent.a.len() != m * n
        || lent.b.len() != m
        || (lent.x.len() != n && !rule.is(Rule::LeastNormLongX))
        || lent.x.len() < n
        || lent.workspace.len() < workspace
    {
        if rule.is(Rule::LeastNormRefusalClearsX) {
            lent.x.fill(0.0);
        }
        return Err(REFUSED);
    }
    if rule.is(Rule::LeastNormWorkspaceLong) && lent.workspace.len() > WORKSPACE {
        lent.workspace[WORKSPACE] = 0.0;
    }
    Ok(solve(lent.a, m, n, lent.b, &mut lent.x[..n], rule))
}

/// The steps, on buffers whose lengths agree.
pub fn solve(a: &mut [f64], m: usize, n: usize, b: &mut [f64], x: &mut [f64], rule: Rule) -> usize {
    if !rule.is(Rule::XKeptAtRankZero) {
        x.fill(0.0);
    }
    let mut perm: Vec<usize> = (0..n).collect();
    let steps = triangulate(a, m, n, b, &mut perm, rule);
    let rank = rank_of(a, n, steps, rule);
    if rank == 0 {
        return 0;
    }
    let mut right = vec![0.0; rank * n];
    if rank < n {
        reduce(a, n, rank, &mut right, rule);
    }
    let mut y = back_substitute(a, n, rank, b, rule);
    if rank < n {
        reflect(&right, n, rank, &mut y, rule);
    }
    for (j, &column) in perm.iter().enumerate() {
        if rule.is(Rule::UnpermuteInverse) {
            x[j] = y[column];
        } else {
            x[column] = y[j];
        }
    }
    rank
}

/// A P = Q R in place, Q applied to b as it is built. Returns the number of
/// steps made before every column left was zero.
fn triangulate(
    a: &mut [f64],
    m: usize,
    n: usize,
    b: &mut [f64],
    perm: &mut [usize],
    rule: Rule,
) -> usize {
    for j in 0..m.min(n) {
        let (best, best_norm) = pivot(a, m, n, j, rule);
        if best != j {
            let first = if rule.is(Rule::SwapBelowOnly) { j } else { 0 };
            for row in first..m {
                a.swap(row * n + j, row * n + best);
            }
            perm.swap(j, best);
        }
        if best_norm == 0.0 && !rule.is(Rule::NoBreakOnZeroColumns) {
            return j;
        }
        step(a, m, n, j, b, best_norm, rule);
        if rule.is(Rule::StopAtRank) && a[j * n + j].abs() <= RANK_TOLERANCE * a[0].abs() {
            return j + 1;
        }
    }
    m.min(n)
}

/// The column of greatest norm from row j down, among j and those after it,
/// the first of equals; and that norm squared.
fn pivot(a: &[f64], m: usize, n: usize, j: usize, rule: Rule) -> (usize, f64) {
    let order = Order::of(rule, Rule::NormDownward, Rule::NormFused);
    let from = if rule.is(Rule::NormFromRowZero) { 0 } else { j };
    let norm = |c: usize| sum(0.0, from, m, order, |row| (a[row * n + c], a[row * n + c]));
    let mut best = (j, norm(j));
    for c in j + 1..n {
        let squared = norm(c);
        let better = if rule.is(Rule::PivotLastOfEquals) {
            squared >= best.1
        } else {
            squared > best.1
        };
        if better {
            best = (c, squared);
        }
    }
    best
}

/// One reflector: it turns column j below the diagonal to zero, and the
/// columns after it and b with it.
fn step(a: &mut [f64], m: usize, n: usize, j: usize, b: &mut [f64], best_norm: f64, rule: Rule) {
    let (beta, v0, vtv) = reflector(a, m, n, j, best_norm, rule);
    for c in j + 1..n {
        let pair = |row: usize| (a[row * n + j], a[row * n + c]);
        let s = column_product(v0 * a[j * n + c], j, m, rule, pair);
        let f = factor(s, vtv, rule.is(Rule::TwiceQuotient));
        a[j * n + c] -= f * v0;
        for row in j + 1..m {
            a[row * n + c] -= f * a[row * n + j];
        }
    }
    let s = column_product(v0 * b[j], j, m, rule, |row| (a[row * n + j], b[row]));
    let f = factor(s, vtv, rule.is(Rule::TwiceQuotient));
    b[j] -= f * v0;
    for row in j + 1..m {
        b[row] -= f * a[row * n + j];
    }
    a[j * n + j] = beta;
    if !rule.is(Rule::ReflectorLeftInA) {
        for row in j + 1..m {
            a[row * n + j] = 0.0;
        }
    }
}

/// Beta, v0 and v'v of column j's reflector; the rest of v is the column.
fn reflector(
    a: &[f64],
    m: usize,
    n: usize,
    j: usize,
    best_norm: f64,
    rule: Rule,
) -> (f64, f64, f64) {
    let order = Order::of(rule, Rule::SigmaDownward, Rule::None);
    let alpha = a[j * n + j];
    let sigma = sum(0.0, j + 1, m, order, |row| (a[row * n + j], a[row * n + j]));
    let squared = if rule.is(Rule::NormOfPivotChoice) {
        best_norm
    } else {
        alpha * alpha + sigma
    };
    let norm = squared.sqrt();
    let negative = if rule.is(Rule::BetaPositiveAtZero) {
        alpha > 0.0
    } else {
        alpha >= 0.0
    };
    let beta = if negative != rule.is(Rule::BetaWithCancellation) {
        -norm
    } else {
        norm
    };
    let v0 = alpha - beta;
    (beta, v0, v0 * v0 + sigma)
}

/// The reflector's product with a column, from the product in row j on.
fn column_product(
    first: f64,
    j: usize,
    m: usize,
    rule: Rule,
    pair: impl Fn(usize) -> (f64, f64),
) -> f64 {
    let order = Order::of(rule, Rule::ProductDownward, Rule::ProductFused);
    if order == Order::Downward {
        return sum(0.0, j + 1, m, order, pair) + first;
    }
    sum(first, j + 1, m, order, pair)
}

/// 2 s / vtv, the product first.
fn factor(s: f64, vtv: f64, quotient_first: bool) -> f64 {
    if quotient_first {
        2.0 * (s / vtv)
    } else {
        2.0 * s / vtv
    }
}

/// How many of the leading diagonals, of the first `steps`, lie above 1e-11 of
/// the first.
fn rank_of(a: &[f64], n: usize, steps: usize, rule: Rule) -> usize {
    if steps == 0 {
        return 0;
    }
    let tolerance = match rule {
        Rule::RankToleranceLarger => 1e-10,
        Rule::RankToleranceSmaller => 1e-12,
        _ => RANK_TOLERANCE,
    };
    let largest = if rule.is(Rule::RankAbsolute) {
        1.0
    } else {
        a[0].abs()
    };
    let above = |r: usize| {
        let diagonal = a[r * n + r].abs();
        if rule.is(Rule::RankAtTolerance) {
            diagonal >= tolerance * largest
        } else {
            diagonal > tolerance * largest
        }
    };
    if rule.is(Rule::RankCountsAll) {
        return (0..steps).filter(|&r| above(r)).count();
    }
    (0..steps).take_while(|&r| above(r)).count()
}

/// [R11 R12] Z = [T 0], from the last row of the rank up. Reflector i acts on
/// column i and on the columns past the rank, and is kept in row i of `right`.
fn reduce(a: &mut [f64], n: usize, rank: usize, right: &mut [f64], rule: Rule) {
    let order = Order::of(rule, Rule::RightSigmaDownward, Rule::None);
    for turn in 0..rank {
        let i = if rule.is(Rule::RightRowsUpward) {
            turn
        } else {
            rank - 1 - turn
        };
        let alpha = a[i * n + i];
        let sigma = sum(0.0, rank, n, order, |c| (a[i * n + c], a[i * n + c]));
        if sigma == 0.0 && !rule.is(Rule::RightNotSkipped) {
            continue;
        }
        let norm = (alpha * alpha + sigma).sqrt();
        let negative = if rule.is(Rule::GammaPositiveAtZero) {
            alpha > 0.0
        } else {
            alpha >= 0.0
        };
        let gamma = if negative { -norm } else { norm };
        let u = &mut right[i * n..(i + 1) * n];
        u[i] = alpha - gamma;
        u[rank..n].copy_from_slice(&a[i * n + rank..i * n + n]);
        let utu = u[i] * u[i] + sigma;
        for row in 0..=i {
            let start = a[row * n + i] * u[i];
            let s = sum(start, rank, n, Order::Upward, |c| (a[row * n + c], u[c]));
            let f = factor(s, utu, rule.is(Rule::RightTwiceQuotient));
            a[row * n + i] -= f * u[i];
            for c in rank..n {
                a[row * n + c] -= f * u[c];
            }
        }
    }
}

/// T w = the front of b, from the last row of the rank up; 0 past the rank.
fn back_substitute(a: &[f64], n: usize, rank: usize, b: &[f64], rule: Rule) -> Vec<f64> {
    let mut y = vec![0.0; n];
    for i in (0..rank).rev() {
        let mut s = b[i];
        for step in i + 1..rank {
            let j = if rule.is(Rule::BackSubstitutionDownward) {
                i + rank - step
            } else {
                step
            };
            s -= a[i * n + j] * y[j];
        }
        y[i] = s / a[i * n + i];
    }
    y
}

/// The reflectors from the right applied to y, the first row's first.
fn reflect(right: &[f64], n: usize, rank: usize, y: &mut [f64], rule: Rule) {
    for turn in 0..rank {
        let i = if rule.is(Rule::ReflectLastFirst) {
            rank - 1 - turn
        } else {
            turn
        };
        let u = &right[i * n..(i + 1) * n];
        let utu = sum(u[i] * u[i], rank, n, Order::Upward, |c| (u[c], u[c]));
        let s = sum(u[i] * y[i], rank, n, Order::Upward, |c| (u[c], y[c]));
        if utu == 0.0 && !rule.is(Rule::ReflectNotSkipped) {
            continue;
        }
        let f = factor(s, utu, rule.is(Rule::ReflectTwiceQuotient));
        y[i] -= f * u[i];
        for c in rank..n {
            y[c] -= f * u[c];
        }
    }
}
