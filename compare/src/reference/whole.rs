//! Whole numbers of any size.

use std::cmp::Ordering;

/// A whole number: its sign, and its magnitude in words of 64 binary digits,
/// the lowest first and the highest not 0. Zero has no words and no sign.
#[derive(Clone, Debug, Default, PartialEq, Eq)]
pub struct Whole {
    negative: bool,
    magnitude: Vec<u64>,
}

impl Whole {
    /// `significand` times 2 to `shift`, negative or not. Digits below the
    /// units are cut off.
    pub fn scaled(negative: bool, significand: u128, shift: i64) -> Self {
        let cut = (-shift).clamp(0, 127) as u32;
        let shift = shift.max(0) as usize;
        let mut magnitude = vec![0; shift / 64];
        let mut rest = significand >> cut;
        let mut carry = 0;
        while rest > 0 || carry > 0 {
            let word = u128::from(rest as u64) << (shift % 64) | carry;
            magnitude.push(word as u64);
            carry = word >> 64;
            rest >>= 64;
        }
        Whole::of(negative, magnitude)
    }

    /// The number of this sign and magnitude.
    pub fn of(negative: bool, mut magnitude: Vec<u64>) -> Self {
        while magnitude.last() == Some(&0) {
            magnitude.pop();
        }
        Whole {
            negative: negative && !magnitude.is_empty(),
            magnitude,
        }
    }

    pub fn is_negative(&self) -> bool {
        self.negative
    }

    pub fn is_zero(&self) -> bool {
        self.magnitude.is_empty()
    }

    /// How many binary digits the magnitude has.
    pub fn digits(&self) -> usize {
        match self.magnitude.last() {
            None => 0,
            Some(top) => 64 * self.magnitude.len() - top.leading_zeros() as usize,
        }
    }

    /// A word of the magnitude; 0 past the highest.
    pub fn word(&self, place: usize) -> u64 {
        self.magnitude.get(place).copied().unwrap_or(0)
    }

    /// A binary digit of the magnitude.
    pub fn digit(&self, place: usize) -> bool {
        self.word(place / 64) >> (place % 64) & 1 == 1
    }

    /// Whether a digit from place `from` up to `to`, not included, is 1.
    pub fn any_digit(&self, from: usize, to: usize) -> bool {
        let words = from / 64..to.div_ceil(64).min(self.magnitude.len());
        words.into_iter().any(|place| {
            let start = 64 * place;
            let low = u64::MAX << from.saturating_sub(start).min(63);
            let high = u64::MAX >> (start + 64).saturating_sub(to).min(63);
            self.magnitude[place] & low & high != 0
        })
    }

    /// The 64 lowest digits of the magnitude from a place on.
    pub fn digits_from(&self, place: usize) -> u64 {
        let (word, by) = (place / 64, place % 64);
        let both = u128::from(self.word(word + 1)) << 64 | u128::from(self.word(word));
        (both >> by) as u64
    }

    /// The sum of two.
    pub fn plus(&self, other: &Whole) -> Whole {
        if self.negative == other.negative {
            return Whole::of(self.negative, added(&self.magnitude, &other.magnitude));
        }
        match compared(&self.magnitude, &other.magnitude) {
            Ordering::Less => Whole::of(
                other.negative,
                subtracted(&other.magnitude, &self.magnitude),
            ),
            _ => Whole::of(self.negative, subtracted(&self.magnitude, &other.magnitude)),
        }
    }
}

fn at(words: &[u64], place: usize) -> u64 {
    words.get(place).copied().unwrap_or(0)
}

/// Which of two magnitudes is the larger; neither has a highest word of 0.
fn compared(a: &[u64], b: &[u64]) -> Ordering {
    let by_length = a.len().cmp(&b.len());
    by_length.then_with(|| a.iter().rev().cmp(b.iter().rev()))
}

fn added(a: &[u64], b: &[u64]) -> Vec<u64> {
    let length = a.len().max(b.len());
    let mut sum = Vec::with_capacity(length + 1);
    let mut carry = 0;
    for place in 0..length {
        let word = u128::from(at(a, place)) + u128::from(at(b, place)) + carry;
        sum.push(word as u64);
        carry = word >> 64;
    }
    sum.push(carry as u64);
    sum
}

/// The difference, `a` being the larger.
fn subtracted(a: &[u64], b: &[u64]) -> Vec<u64> {
    let mut difference = Vec::with_capacity(a.len());
    let mut borrow = 0;
    for place in 0..a.len() {
        let word = i128::from(at(a, place)) - i128::from(at(b, place)) - borrow;
        difference.push(word as u64);
        borrow = i128::from(word < 0);
    }
    difference
}
