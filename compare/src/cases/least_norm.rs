//! Least-norm systems, and the buffers lent with them.

use super::random::Rng;

/// One direct call.
#[derive(Clone, Debug)]
pub struct Case {
    pub m: usize,
    pub n: usize,
    pub a: Vec<f64>,
    pub b: Vec<f64>,
    pub x_len: usize,
    pub workspace_len: usize,
    pub rank_len: usize,
    /// What the workspace holds.
    pub fill: f64,
}

type Make = fn(&mut Rng) -> Case;

/// The families by name.
pub const FAMILIES: &[(&str, Make)] = &[
    ("least_norm/square", square),
    ("least_norm/wide", wide),
    ("least_norm/tall", tall),
    ("least_norm/deficient", deficient),
    ("least_norm/lattice", lattice),
    ("least_norm/tied", tied),
    ("least_norm/zero", zero),
    ("least_norm/special", special),
    ("least_norm/scaled", scaled),
    ("least_norm/quotient", quotient),
    ("least_norm/tolerance", tolerance),
    ("least_norm/beta", beta),
    ("least_norm/large", large),
    ("least_norm/lengths", lengths),
];

impl Case {
    fn of(rng: &mut Rng, m: usize, n: usize, entry: impl Fn(&mut Rng) -> f64) -> Self {
        let a = (0..m * n).map(|_| entry(rng)).collect();
        let b = (0..m).map(|_| entry(rng)).collect();
        let fill = rng.pick(&[0.0, f64::NAN, f64::INFINITY, -3.5, 1e300]);
        let workspace_len = 1_056 + rng.pick(&[0, 0, 1, 7]);
        Case {
            m,
            n,
            a,
            b,
            x_len: n,
            workspace_len,
            rank_len: 1 + rng.below(3),
            fill,
        }
    }
}

/// Mostly small sizes.
fn size(rng: &mut Rng) -> usize {
    match rng.below(20) {
        0..=13 => rng.between(1, 5) as usize,
        14..=18 => rng.between(6, 10) as usize,
        _ => rng.between(11, 24) as usize,
    }
}

fn square(rng: &mut Rng) -> Case {
    let n = size(rng);
    Case::of(rng, n, n, |rng| rng.signed())
}

fn wide(rng: &mut Rng) -> Case {
    let m = size(rng);
    let n = (m + 1 + rng.below(6)).min(32);
    Case::of(rng, m, n, |rng| rng.signed())
}

fn tall(rng: &mut Rng) -> Case {
    let n = size(rng);
    let m = (n + 1 + rng.below(6)).min(32);
    Case::of(rng, m, n, |rng| rng.signed())
}

/// A product of two factors with fewer columns than either side; the entries
/// of the factors are whole numbers half of the time, so that the rank is
/// exact.
fn deficient(rng: &mut Rng) -> Case {
    let (m, n) = (size(rng), size(rng));
    let rank = rng.below(m.min(n) + 1);
    let whole = rng.chance(50);
    let entry = |rng: &mut Rng| {
        if whole {
            rng.lattice(-3, 3)
        } else {
            rng.signed()
        }
    };
    let left: Vec<f64> = (0..m * rank).map(|_| entry(rng)).collect();
    let right: Vec<f64> = (0..rank * n).map(|_| entry(rng)).collect();
    let mut case = Case::of(rng, m, n, entry);
    for i in 0..m {
        for j in 0..n {
            case.a[i * n + j] = (0..rank)
                .map(|k| left[i * rank + k] * right[k * n + j])
                .sum();
        }
    }
    case
}

fn lattice(rng: &mut Rng) -> Case {
    let most = rng.pick(&[1, 2, 5]);
    let (m, n) = (rng.between(0, 6) as usize, rng.between(0, 6) as usize);
    Case::of(rng, m, n, |rng| rng.lattice(-most, most))
}

/// Columns of equal norm: copies, copies with another sign, and copies with
/// their rows in another order.
fn tied(rng: &mut Rng) -> Case {
    let (m, n) = (1 + rng.below(6), 2 + rng.below(6));
    let mut case = Case::of(rng, m, n, |rng| rng.signed());
    for c in 1..n {
        if rng.chance(40) {
            continue;
        }
        let from = rng.below(c);
        let sign = rng.pick(&[1.0, -1.0]);
        let turn = if rng.chance(30) { rng.below(m) } else { 0 };
        for row in 0..m {
            case.a[row * n + c] = sign * case.a[(row + turn) % m * n + from];
        }
    }
    case
}

/// Zero matrices, zero columns and zero rows, zeros of either sign.
fn zero(rng: &mut Rng) -> Case {
    let (m, n) = (rng.below(7), rng.below(7));
    let mut case = Case::of(rng, m, n, |rng| rng.signed());
    let all = rng.chance(20);
    let kept = if rng.chance(50) { rng.below(n + 1) } else { n };
    let flat_row = rng.below(m + 1);
    for i in 0..m {
        for j in 0..n {
            if all || j >= kept || i == flat_row || rng.chance(20) {
                case.a[i * n + j] = rng.pick(&[0.0, 0.0, -0.0, 1e-170, -1e-200]);
            }
        }
    }
    case
}

/// NaN, infinities, subnormals, zeros of either sign, and values whose squares
/// overflow or vanish.
fn special(rng: &mut Rng) -> Case {
    let (m, n) = (1 + rng.below(5), 1 + rng.below(5));
    let percent = rng.pick(&[5, 20, 60]);
    Case::of(rng, m, n, |rng| {
        if rng.chance(percent) {
            rng.special()
        } else {
            rng.signed()
        }
    })
}

/// Rows and columns scaled apart.
fn scaled(rng: &mut Rng) -> Case {
    let (m, n) = (size(rng), size(rng));
    let most = rng.pick(&[3.0, 8.0, 60.0, 160.0]);
    let mut case = Case::of(rng, m, n, |rng| rng.signed());
    for j in 0..n {
        let by = rng.decade(most);
        for i in 0..m {
            case.a[i * n + j] *= by;
        }
    }
    for i in 0..m {
        let by = rng.decade(if most > 8.0 { 4.0 } else { most });
        for j in 0..n {
            case.a[i * n + j] *= by;
        }
        case.b[i] *= by;
    }
    case
}

/// Columns so far apart that s / vtv is subnormal, or that 2 s overflows:
/// where 2 (s / vtv) and 2 s / vtv differ.
fn quotient(rng: &mut Rng) -> Case {
    let (m, n) = (1 + rng.below(4), 2 + rng.below(4));
    let mut case = Case::of(rng, m, n, |rng| rng.signed());
    match rng.below(4) {
        0 => {
            let by = rng.magnitude(151.0, 154.0);
            case.a.iter_mut().for_each(|v| *v *= by);
            let more = rng.pick(&[1.0, 1e2, 1e4]);
            case.b.iter_mut().for_each(|v| *v *= by * more);
        }
        1 => first_column_large(rng, &mut case),
        2 => {
            // b so small beside a that the reflectors' factors of y are.
            let by = rng.decade(100.0);
            let small = by * by * 1e-300 * rng.magnitude(-12.0, -8.0);
            case.a.iter_mut().for_each(|v| *v *= by);
            case.b.iter_mut().for_each(|v| *v *= small);
        }
        _ => first_row_tiny(rng, &mut case),
    }
    case
}

/// The first column large, the others and b so small that the factors of the
/// first reflector are subnormal.
fn first_column_large(rng: &mut Rng, case: &mut Case) {
    let large = rng.magnitude(140.0, 153.0);
    for i in 0..case.m {
        for j in 0..case.n {
            let small = rng.magnitude(-180.0, -160.0);
            case.a[i * case.n + j] *= if j == 0 { large } else { small };
        }
        case.b[i] *= rng.magnitude(-175.0, -155.0);
    }
}

/// The first row tiny but for its diagonal, so that the right reflectors'
/// factors of it are subnormal.
fn first_row_tiny(rng: &mut Rng, case: &mut Case) {
    let n = case.n;
    let large = rng.magnitude(145.0, 150.0);
    for (place, v) in case.a.iter_mut().enumerate() {
        let tiny = rng.magnitude(-170.0, -155.0);
        *v *= if place > 0 && place < n { tiny } else { large };
        if place >= n && place % n == 0 {
            *v = 0.0;
        }
    }
    case.a[0] *= 8.0;
}

/// Diagonals at and around 1e-11 of the first.
fn tolerance(rng: &mut Rng) -> Case {
    let k = 2 + rng.below(4);
    let mut case = Case::of(rng, k, k, |rng| rng.signed());
    let first = rng.power_of_two(-3, 3)
        * if rng.chance(50) {
            1.0
        } else {
            1.0 + rng.unit()
        };
    let limit = 1e-11 * first;
    let spread = rng.pick(&[0, 1, 4, 1 << 40]);
    let pattern = rng.below(3);
    for i in 0..k {
        for j in 0..k {
            let value = match (i, j) {
                (0, 0) => first,
                (0, _) => rng.pick(&[0.0, 0.0, 1e-3 * limit]),
                (_, 0) => 0.0,
                _ if pattern == 0 && i != j => 0.0,
                _ if pattern == 1 => rng.pick(&[1.0, -1.0]) * limit / (k as f64 - 1.0).sqrt(),
                _ => rng.pick(&[1.0, -1.0]) * limit * rng.pick(&[1.0, 1.0, 0.5, 0.7]),
            };
            case.a[i * k + j] = rng.nudged(value, spread);
        }
    }
    case
}

/// Zeros of either sign on the pivot's place: alpha at zero.
fn beta(rng: &mut Rng) -> Case {
    let n = 2 + rng.below(4);
    let order = rng.permutation(n);
    let mut case = Case::of(rng, n, n, |rng| {
        if rng.chance(70) {
            rng.lattice(0, 0)
        } else {
            rng.lattice(-2, 2)
        }
    });
    for (i, &j) in order.iter().enumerate() {
        case.a[i * n + j] = rng.lattice(-4, 4);
    }
    case
}

/// Up to 32 rows and columns, full or deficient.
fn large(rng: &mut Rng) -> Case {
    let (m, n) = (rng.between(17, 32) as usize, rng.between(17, 32) as usize);
    let (m, n) = if rng.chance(30) { (32, 32) } else { (m, n) };
    let mut case = Case::of(rng, m, n, |rng| rng.signed());
    if rng.chance(50) {
        let kept = 1 + rng.below(n);
        for j in kept..n {
            let from = rng.below(kept);
            for i in 0..m {
                case.a[i * n + j] = case.a[i * n + from] - case.a[i * n + j % kept];
            }
        }
    }
    case
}

/// Lengths at and around each limit.
fn lengths(rng: &mut Rng) -> Case {
    let mut case = lattice(rng);
    let off = rng.pick(&[-1i64, 1, 5]);
    let shift = |len: usize| (len as i64 + off).max(0) as usize;
    match rng.below(9) {
        0 => case.a.resize(shift(case.a.len()), 0.5),
        1 => case.b.resize(shift(case.b.len()), 0.5),
        2 => case.x_len = shift(case.x_len),
        3 => case.workspace_len = rng.pick(&[0, 1, 1_055, 1_056, 1_057, 1_060]),
        4 => {
            let (m, n) = rng.pick(&[
                (32, 32),
                (33, 1),
                (1, 33),
                (33, 0),
                (0, 33),
                (0, 32),
                (32, 0),
                (33, 33),
            ]);
            let fresh = Case::of(rng, m, n, |rng| rng.lattice(-2, 2));
            case = fresh;
        }
        5 => case.m = rng.pick(&[usize::MAX, 1 << 32, 1 << 63, 33, 0]),
        6 => case.n = rng.pick(&[usize::MAX, 1 << 32, 1 << 63, 33, 0]),
        7 => case.rank_len = rng.below(3),
        _ => {
            case.m = rng.pick(&[1 << 32, 1 << 63]);
            case.n = rng.pick(&[1 << 32, 2]);
            case.a.clear();
        }
    }
    case
}
