//! Row sums whose exact value float arithmetic is delicate about.

use super::random::{power_of_two, Rng};

/// A free motion and products.
#[derive(Clone, Debug, Default)]
pub struct Sum {
    pub u: f64,
    pub products: Vec<(f64, f64)>,
}

pub type Make = fn(&mut Rng) -> Sum;

/// A finite value of any exponent, at times a zero or a subnormal number.
fn finite(rng: &mut Rng) -> f64 {
    let special = rng.special();
    if rng.chance(8) && special.is_finite() {
        return special;
    }
    let v = f64::from_bits(rng.next());
    if v.is_finite() {
        v
    } else {
        f64::from_bits(v.to_bits() & !(1 << 62))
    }
}

fn either(rng: &mut Rng, v: f64) -> f64 {
    if rng.chance(50) {
        -v
    } else {
        v
    }
}

fn how_many(rng: &mut Rng) -> usize {
    match rng.below(10) {
        0 => 32,
        1 => rng.below(33),
        _ => rng.below(7),
    }
}

/// Values of all exponents.
pub fn any(rng: &mut Rng) -> Sum {
    let count = how_many(rng);
    Sum {
        u: finite(rng),
        products: (0..count).map(|_| (finite(rng), finite(rng))).collect(),
    }
}

/// Values of a size, as rows of a problem have them.
pub fn ordinary(rng: &mut Rng) -> Sum {
    let count = how_many(rng);
    let digits = rng.pick(&[53, 53, 8, 3]);
    let value = |rng: &mut Rng| {
        let cut = !0 << (53 - digits);
        let v = rng.signed() * rng.decade(3.0);
        f64::from_bits(v.to_bits() & cut)
    };
    Sum {
        u: value(rng),
        products: (0..count).map(|_| (value(rng), value(rng))).collect(),
    }
}

/// Terms and their opposites in any order, some of them moved by a place in
/// the last digit, and something small beside them.
pub fn cancelling(rng: &mut Rng) -> Sum {
    let pairs = 1 + rng.below(8);
    let mut products = Vec::new();
    for _ in 0..pairs {
        let (w, nu) = if rng.chance(50) {
            (finite(rng), finite(rng))
        } else {
            (rng.signed(), rng.signed() * rng.decade(8.0))
        };
        products.push((w, nu));
        let other = if rng.chance(30) {
            rng.nudged(nu, 1)
        } else {
            nu
        };
        let other = if other.is_finite() { other } else { nu };
        products.push(if rng.chance(50) {
            (-w, other)
        } else {
            (other, -w)
        });
    }
    for _ in 0..rng.below(3) {
        let small = power_of_two(rng.between(-1_074, -900));
        products.push((finite(rng), small));
    }
    let mut sum = Sum { u: 0.0, products };
    shuffle(rng, &mut sum.products);
    sum.u = match rng.below(3) {
        0 => either(rng, 0.0),
        1 => finite(rng),
        _ => rng.signed(),
    };
    sum
}

fn shuffle(rng: &mut Rng, products: &mut [(f64, f64)]) {
    for i in (1..products.len()).rev() {
        products.swap(i, rng.below(i + 1));
    }
}

/// Two powers of two whose product is 2 to this exponent, which is at most
/// 2,046 and at least -2,148.
fn power(rng: &mut Rng, exponent: i64) -> (f64, f64) {
    let from = (exponent - 1_023).max(-1_074);
    let to = (exponent + 1_074).min(1_023);
    let first = rng.between(from, to);
    let (a, b) = (power_of_two(first), power_of_two(exponent - first));
    (either(rng, a), b)
}

/// A value with half of its last place, or of the next smaller value's, and
/// at times something far smaller that decides; large terms that cancel.
pub fn ties(rng: &mut Rng) -> Sum {
    let u = match rng.below(8) {
        0 => f64::from_bits(rng.next() >> 12 >> rng.below(52)),
        1 => f64::MAX,
        2 => f64::MIN_POSITIVE,
        3 => power_of_two(rng.between(-1_074, 1_023)),
        4 => f64::from_bits((rng.next() >> 1 | 0xF_FFFF_FFFF_FFFF).min(0x7FEF_FFFF_FFFF_FFFF)),
        _ => finite(rng).abs(),
    };
    let place = ((u.to_bits() >> 52) as i64).max(1) - 1_075;
    let u = either(rng, u);
    let half = place - 1 - rng.pick(&[0, 0, 0, 1]);
    let mut products = vec![power(rng, half.max(-2_148))];
    if rng.chance(60) {
        let lower = match rng.below(3) {
            0 => -2_148,
            1 => half - 1 - rng.below(70) as i64,
            _ => rng.between(-2_148, half),
        };
        products.push(power(rng, lower.max(-2_148)));
    }
    if rng.chance(30) {
        let (w, nu) = (finite(rng), finite(rng));
        products.push((w, nu));
        products.push((w, -nu));
        shuffle(rng, &mut products);
    }
    Sum { u, products }
}

/// Products about the smallest numbers, and below them.
pub fn subnormal(rng: &mut Rng) -> Sum {
    let count = 1 + rng.below(6);
    let mut products: Vec<(f64, f64)> = (0..count)
        .map(|_| {
            let sum = rng.between(-1_140, -1_010);
            let first = rng.between(-1_000, 0).max(sum);
            let w = power_of_two(first) * (1.0 + rng.unit());
            let nu = power_of_two(sum - first) * (1.0 + rng.unit());
            (either(rng, w), nu)
        })
        .collect();
    if rng.chance(30) {
        let lowest = rng.between(-2_148, -2_100);
        products.push(power(rng, lowest));
    }
    let tiny = f64::from_bits(rng.next() >> 12 >> rng.below(52));
    let u = rng.pick(&[0.0, -0.0, tiny, tiny, f64::MIN_POSITIVE]);
    Sum {
        u: either(rng, u),
        products,
    }
}

/// Sums about the largest f64, some of which come back from beyond it.
pub fn overflow(rng: &mut Rng) -> Sum {
    let large =
        |rng: &mut Rng| f64::from_bits(f64::MAX.to_bits() - (rng.next() >> rng.between(12, 63)));
    let mut products = Vec::new();
    for _ in 0..1 + rng.below(4) {
        let (w, nu) = (large(rng), rng.pick(&[1.0, 2.0, -2.0, -1.0, 0.5]));
        products.push((w, nu));
        if rng.chance(70) {
            products.push((-w, nu));
        }
    }
    if rng.chance(20) {
        let (w, nu) = (large(rng), large(rng));
        products.push((w, nu));
        if rng.chance(60) {
            products.push((w, -nu));
        }
    }
    for _ in 0..rng.below(3) {
        let exponent = rng.between(960, 975);
        products.push(power(rng, exponent));
    }
    if rng.chance(40) {
        products.push(power(rng, -2_148));
    }
    shuffle(rng, &mut products);
    let u = large(rng);
    Sum {
        u: either(rng, u),
        products,
    }
}

/// Powers of two far apart with either sign, so that carries and borrows run
/// over many words and back.
pub fn carries(rng: &mut Rng) -> Sum {
    let count = 1 + rng.below(12);
    let products = (0..count)
        .map(|_| {
            let exponent = match rng.below(3) {
                0 => -2_148,
                1 => 64 * rng.between(-33, 31) - 36 + rng.between(-1, 1),
                _ => rng.between(-2_148, 2_046),
            };
            power(rng, exponent)
        })
        .collect();
    let u = match rng.below(3) {
        0 => 0.0,
        1 => power_of_two(rng.between(-1_074, 1_023)),
        _ => finite(rng),
    };
    Sum {
        u: either(rng, u),
        products,
    }
}
