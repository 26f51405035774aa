//! Values for the square root.

use super::random::Rng;

/// A bit pattern across all exponents, or one near where rounding is delicate.
pub fn pattern(rng: &mut Rng) -> u64 {
    let bits = rng.next();
    match bits & 15 {
        0 => near_square(rng),
        1 => near_midpoint(rng),
        2 => subnormal(rng),
        3 => special(rng),
        4 => rng.next() & !(1 << 63) & !((1 << rng.below(53)) - 1),
        _ => {
            // Any exponent and fraction, the sign mostly plus.
            let any = rng.next();
            if bits & 0xF0 == 0 {
                any
            } else {
                any & !(1 << 63)
            }
        }
    }
}

/// At or next to the square of a short float, which is exact.
fn near_square(rng: &mut Rng) -> u64 {
    let root = 1 + (rng.next() >> 38 >> rng.below(25) as u32);
    let square = (root * root) as f64;
    let moved = square * super::random::power_of_two(2 * rng.between(-500, 480));
    (moved.to_bits() as i64 + rng.between(-2, 2)).max(0) as u64
}

/// Next to the square of a point halfway between two floats.
fn near_midpoint(rng: &mut Rng) -> u64 {
    let root = (1u128 << 53) + 2 * u128::from(rng.next() >> 12) + 1;
    let square = (root * root) >> rng.pick(&[54, 55, 54]);
    let value = square as f64 * super::random::power_of_two(rng.between(-1000, 900));
    (value.to_bits() as i64 + rng.between(-2, 2)).max(0) as u64
}

fn subnormal(rng: &mut Rng) -> u64 {
    rng.next() >> 12 >> rng.below(52) as u32
}

/// Zeros, infinities, NaNs with any payload, negatives and the ends of ranges.
fn special(rng: &mut Rng) -> u64 {
    let payload = rng.next() >> 12;
    let near = rng.below(4) as u64;
    let values = [
        0,
        1 << 63,
        0x7FF0_0000_0000_0000,
        0xFFF0_0000_0000_0000,
        0x7FF0_0000_0000_0000 | payload,
        0xFFF0_0000_0000_0000 | payload,
        rng.next() | 1 << 63,
        0x0010_0000_0000_0000 - 2 + near,
        0x7FEF_FFFF_FFFF_FFFF - near,
        0x3FF0_0000_0000_0000 - 2 + near,
        0x4000_0000_0000_0000 - 2 + near,
        near,
        (1 << 63) | near,
    ];
    rng.pick(&values)
}
