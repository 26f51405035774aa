//! A small generator of random numbers (SplitMix64) and of values that float
//! arithmetic is delicate about.

/// The state of the generator.
pub struct Rng(u64);

impl Rng {
    /// The generator of one case.
    pub fn of_case(family: &str, seed: u64, index: u64) -> Self {
        let mut state = 0xCBF2_9CE4_8422_2325_u64;
        for byte in family.bytes() {
            state = (state ^ u64::from(byte)).wrapping_mul(0x0000_0100_0000_01B3);
        }
        let mut rng = Rng(state ^ seed.wrapping_mul(0x9E37_79B9_7F4A_7C15));
        let mixed = rng.next();
        Rng(mixed ^ index.wrapping_mul(0xD1B5_4A32_D192_ED03))
    }

    pub fn next(&mut self) -> u64 {
        self.0 = self.0.wrapping_add(0x9E37_79B9_7F4A_7C15);
        let mut z = self.0;
        z = (z ^ (z >> 30)).wrapping_mul(0xBF58_476D_1CE4_E5B9);
        z = (z ^ (z >> 27)).wrapping_mul(0x94D0_49BB_1331_11EB);
        z ^ (z >> 31)
    }

    /// A whole number below `n`, which is at least 1.
    pub fn below(&mut self, n: usize) -> usize {
        ((u128::from(self.next()) * n as u128) >> 64) as usize
    }

    /// A whole number from `from` to `to`, both included.
    pub fn between(&mut self, from: i64, to: i64) -> i64 {
        from + self.below((to - from + 1) as usize) as i64
    }

    /// True in `percent` of a hundred.
    pub fn chance(&mut self, percent: usize) -> bool {
        self.below(100) < percent
    }

    /// One of the values.
    pub fn pick<T: Copy>(&mut self, values: &[T]) -> T {
        values[self.below(values.len())]
    }

    /// From 0 up to but not including 1.
    pub fn unit(&mut self) -> f64 {
        (self.next() >> 11) as f64 / (1u64 << 53) as f64
    }

    /// From -1 to 1.
    pub fn signed(&mut self) -> f64 {
        2.0 * self.unit() - 1.0
    }

    /// A positive number with a decimal exponent from `-most` to `most`.
    pub fn decade(&mut self, most: f64) -> f64 {
        self.magnitude(-most, most)
    }

    /// A positive number with a decimal exponent between the two. It is made
    /// from a power of two, so that it is the same on every machine.
    pub fn magnitude(&mut self, from: f64, to: f64) -> f64 {
        let decimal = from + (to - from) * self.unit();
        let exponent = (decimal * std::f64::consts::LOG2_10).floor() as i64;
        power_of_two(exponent.clamp(-1074, 1023)) * (1.0 + self.unit())
    }

    /// A power of two with a whole exponent.
    pub fn power_of_two(&mut self, from: i64, to: i64) -> f64 {
        power_of_two(self.between(from, to))
    }

    /// A whole number as a float; its zeros have either sign.
    pub fn lattice(&mut self, from: i64, to: i64) -> f64 {
        let v = self.between(from, to) as f64;
        if v == 0.0 && self.chance(15) {
            -0.0
        } else {
            v
        }
    }

    /// A value that float arithmetic is delicate about.
    pub fn special(&mut self) -> f64 {
        let any = f64::from_bits(self.next());
        let subnormal = f64::from_bits(self.next() >> 12 >> self.below(52) as u32);
        let values = [
            f64::NAN,
            f64::INFINITY,
            f64::NEG_INFINITY,
            0.0,
            -0.0,
            1.0,
            -1.0,
            f64::MAX,
            f64::MIN,
            f64::MIN_POSITIVE,
            f64::from_bits(1),
            subnormal,
            -subnormal,
            1e-9,
            1e6,
            1e-160,
            1e160,
            any,
        ];
        self.pick(&values)
    }

    /// `v` moved by up to `most` places in the last digit, finite values only.
    pub fn nudged(&mut self, v: f64, most: i64) -> f64 {
        let by = self.between(-most, most);
        if v == 0.0 || !v.is_finite() {
            return v;
        }
        f64::from_bits((v.to_bits() as i64 + by) as u64)
    }

    /// A permutation of `0..n`.
    pub fn permutation(&mut self, n: usize) -> Vec<usize> {
        let mut order: Vec<usize> = (0..n).collect();
        for i in (1..n).rev() {
            order.swap(i, self.below(i + 1));
        }
        order
    }
}

/// Two to a whole power, subnormal ones included.
pub fn power_of_two(exponent: i64) -> f64 {
    if exponent >= -1022 {
        f64::from_bits(((exponent + 1023) as u64) << 52)
    } else {
        f64::from_bits(1u64 << (exponent + 1074))
    }
}
