//! The oracle's answers, stored for replay where no Rust is at hand.
//!
//! Formats, all little-endian, any NaN as 7FF8000000000000:
//!
//! - `sqrt.bin`: 4,096 records of 16 bytes, a value's bits and its root's.
//! - `least_norm.bin`: a u32 count; then for each system u8 m, u8 n, m n values
//!   of a, m of b; u8 rank, m n values left in a, m left in b, n of x.
//!
//! Solves follow the same way once the port has them, as `solve.bin`: a u32
//! count; then for each solve u8 n, u16 coords, the numbers of a bend file in
//! its order (W, u_free, lo, hi, scale, nu, motion, tolerance); u8 outcome (0
//! solved, 1 growth, 2 pass, 3 sweep), u8 sweeps, u8 passes, u8 flags (1
//! converged, 2 exact), u8 idle, the residual, n bytes of states, n values of
//! multipliers, u8 number of rows listed and one byte for each.

use crate::calls::least_norm::LeastNorm;
use crate::calls::Call;
use crate::cases::least_norm::Case;
use crate::cases::random::Rng;
use crate::cases::roots::pattern;
use crate::reference::Rule;
use std::fs;
use std::path::Path;

const SEED: u64 = 7;
const ROOTS: usize = 4_096;
const SYSTEMS: usize = 1_500;

/// How many of the systems are larger than 6 by 6.
const LARGE_SYSTEMS: usize = 24;

const README: &str = "\
# Stored answers

What the original Rust answers to fixed inputs, for replay without Rust. The
files are made by

    cargo run --release --offline -- vectors DIR

with the original's files at hand, and are the same each time they are made.
All numbers are little-endian; any NaN is stored as 7FF8000000000000.

`sqrt.bin`: 4,096 records of 16 bytes: the bits of a value and the bits of its
square root, taken from the hardware, which IEEE 754 rounds correctly. The
first records are zeros, infinities, NaN, the ends of the ranges and small
whole numbers; the others are drawn from all exponents, subnormal numbers,
neighbours of exact squares and of squares of midpoints, and negative numbers.

`least_norm.bin`: a u32, the number of systems; then for each system m (u8),
n (u8), the m n values of a by rows and the m values of b; then what
`LeastNorm::solve` of dense.rs leaves: the rank (u8), a (m n values), b (m) and
x (n). Most are at most 6 by 6, the last ones up to 32 by 32. The systems are
those of the comparison's families (square, wide, tall, deficient, tied
columns, zeros, NaN and infinities, badly scaled, near the rank tolerance).
";

/// Writes the files into a folder, which is made if it is not there.
pub fn write(folder: &Path) -> Result<(), String> {
    fs::create_dir_all(folder).map_err(|e| format!("{}: {e}", folder.display()))?;
    let systems = least_norm_bytes()?;
    put(folder, "sqrt.bin", &root_bytes())?;
    put(folder, "least_norm.bin", &systems)?;
    put(folder, "README.md", README.as_bytes())
}

fn put(folder: &Path, name: &str, bytes: &[u8]) -> Result<(), String> {
    let file = folder.join(name);
    fs::write(&file, bytes).map_err(|e| format!("{}: {e}", file.display()))?;
    println!("{}: {} bytes", file.display(), bytes.len());
    Ok(())
}

/// A value's bits, any NaN as one.
fn bits(v: f64) -> u64 {
    if v.is_nan() {
        0x7FF8_0000_0000_0000
    } else {
        v.to_bits()
    }
}

fn push(bytes: &mut Vec<u8>, values: &[f64]) {
    for &v in values {
        bytes.extend(bits(v).to_le_bytes());
    }
}

/// Values that must be among the roots.
fn chosen_values() -> Vec<f64> {
    let mut values = vec![
        0.0,
        -0.0,
        f64::INFINITY,
        f64::NEG_INFINITY,
        f64::NAN,
        f64::from_bits(1),
        f64::from_bits(2),
        f64::from_bits(3),
        f64::from_bits(0x000F_FFFF_FFFF_FFFF),
        f64::MIN_POSITIVE,
        f64::MAX,
        f64::EPSILON,
        -1.0,
        f64::MIN,
        -f64::from_bits(1),
    ];
    values.extend((1..=64).map(f64::from));
    values
}

fn root_bytes() -> Vec<u8> {
    let mut rng = Rng::of_case("vectors/sqrt", SEED, 0);
    let mut values = chosen_values();
    while values.len() < ROOTS {
        values.push(f64::from_bits(pattern(&mut rng)));
    }
    let mut bytes = Vec::with_capacity(16 * ROOTS);
    for v in values {
        push(&mut bytes, &[v, v.sqrt()]);
    }
    bytes
}

/// The systems that are stored: small ones of every family in turn, then
/// larger ones.
fn systems() -> Vec<Case> {
    let families = LeastNorm::families();
    let draw = |place: u64| {
        let family = families[place as usize % families.len()];
        let case = LeastNorm::case(family, &mut Rng::of_case(family, SEED, place))?;
        accepted(&case).then_some(case)
    };
    let small = |case: &Case| case.m <= 6 && case.n <= 6;
    let few = (0..)
        .filter_map(draw)
        .filter(small)
        .take(SYSTEMS - LARGE_SYSTEMS);
    let large = (0..)
        .filter_map(draw)
        .filter(|case| !small(case))
        .take(LARGE_SYSTEMS);
    few.chain(large).collect()
}

fn accepted(case: &Case) -> bool {
    let (m, n) = (case.m, case.n);
    m <= 32
        && n <= 32
        && case.a.len() == m * n
        && case.b.len() == m
        && case.x_len == n
        && case.rank_len > 0
}

fn least_norm_bytes() -> Result<Vec<u8>, String> {
    let systems = systems();
    let mut bytes = (systems.len() as u32).to_le_bytes().to_vec();
    for mut case in systems {
        case.workspace_len = case.workspace_len.max(1_056);
        let reference = LeastNorm::reference(&case, Rule::None);
        let Some(answer) = LeastNorm::original(&case, &reference) else {
            return Err(String::from(
                "the stored answers are the original's, and its files are not at hand",
            ));
        };
        bytes.extend([case.m as u8, case.n as u8]);
        push(&mut bytes, &case.a);
        push(&mut bytes, &case.b);
        bytes.push(answer.rank[0] as u8);
        push(&mut bytes, &answer.a);
        push(&mut bytes, &answer.b);
        push(&mut bytes, &answer.x);
    }
    Ok(bytes)
}
