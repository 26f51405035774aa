//! The bend file's reader, refusals 1 to 4.

use super::rule::Rule;

/// The length of the trailer, and the shortest file.
pub(super) const TRAILER: usize = 16;

/// The longest file.
pub const LONGEST: usize = 65_536;

/// What a bend file says.
#[derive(Clone, Debug)]
pub struct Bend {
    pub w: Vec<f64>,
    pub u_free: Vec<f64>,
    pub lo: Vec<f64>,
    pub hi: Vec<f64>,
    pub scale: Vec<f64>,
    pub nu: Vec<f64>,
    pub motion: Vec<f64>,
    pub tolerance: f64,
}

/// The trailer's four numbers.
pub(super) struct Trailer {
    pub(super) start: u32,
    pub(super) n: u16,
    pub(super) coords: u16,
    pub(super) count: u32,
}

impl Trailer {
    pub(super) fn of(bytes: &[u8]) -> Self {
        let u16_at = |k: usize| u16::from_le_bytes([bytes[k], bytes[k + 1]]);
        let u32_at =
            |k: usize| u32::from_le_bytes([bytes[k], bytes[k + 1], bytes[k + 2], bytes[k + 3]]);
        Trailer {
            start: u32_at(0),
            n: u16_at(4),
            coords: u16_at(6),
            count: u32_at(8),
        }
    }

    /// n > 32 or coords n > 2,048.
    pub(super) fn too_large(&self, rule: Rule) -> bool {
        let product = if rule.is(Rule::BendProductWraps) {
            u64::from(self.coords.wrapping_mul(self.n))
        } else {
            u64::from(self.coords) * u64::from(self.n)
        };
        let no_rows = rule.is(Rule::BendCoordsAtNoRows) && self.n == 0 && self.coords > 2_048;
        self.n > 32 || product > 2_048 || no_rows
    }

    /// Whether the count rule is broken.
    pub(super) fn count_wrong(&self) -> bool {
        let (n, coords) = (u64::from(self.n), u64::from(self.coords));
        u64::from(self.count) != n * n + 5 * n + coords * n + 1
    }

    /// Whether the count or the length rule is broken.
    fn broken(&self, length: usize, rule: Rule) -> bool {
        let whole = u64::from(self.start) + 8 * u64::from(self.count) + TRAILER as u64;
        let length_wrong = match rule {
            Rule::BendLengthModulo => whole as u32 != length as u32,
            Rule::BendLengthLoose => whole > length as u64,
            _ => whole != length as u64,
        };
        (self.count_wrong() && !rule.is(Rule::BendCountUnchecked)) || length_wrong
    }
}

/// Reads a file, or gives the number of the first refusal that holds.
pub fn read(file: &[u8], rule: Rule) -> Result<Bend, u32> {
    let shortest = if rule.is(Rule::BendShortest) {
        TRAILER + 1
    } else {
        TRAILER
    };
    let longest = match rule {
        Rule::BendLongestLow => LONGEST - 1,
        Rule::BendLongestHigh => LONGEST + 1,
        _ => LONGEST,
    };
    if file.len() < shortest || file.len() > longest {
        return Err(1);
    }
    let (front, trailer_bytes) = file.split_at(file.len() - TRAILER);
    let trailer = Trailer::of(trailer_bytes);
    let mark_wrong = &trailer_bytes[12..] != b"BEND";
    if rule.is(Rule::ThreeBeforeTwo) && trailer.too_large(rule) {
        return Err(3);
    }
    if mark_wrong {
        return Err(2);
    }
    if rule.is(Rule::FourBeforeThree) && trailer.broken(file.len(), rule) {
        return Err(4);
    }
    if trailer.too_large(rule) {
        return Err(3);
    }
    if trailer.broken(file.len(), rule) {
        return Err(4);
    }
    let start = if rule.is(Rule::BendStartIgnored) {
        0
    } else {
        trailer.start as usize
    };
    let (n, coords) = (usize::from(trailer.n), usize::from(trailer.coords));
    Ok(numbers(front, start, n, coords, rule))
}

/// The numbers from `place` on, in the file's order. Where an error lets a
/// broken file through, numbers past its end are read as 0.
pub(super) fn numbers(front: &[u8], mut place: usize, n: usize, coords: usize, rule: Rule) -> Bend {
    let mut take = |count: usize| -> Vec<f64> {
        let mut values = Vec::with_capacity(count);
        for _ in 0..count {
            let bytes = front.get(place..place + 8).and_then(|b| b.try_into().ok());
            values.push(f64::from_le_bytes(bytes.unwrap_or([0; 8])));
            place += 8;
        }
        values
    };
    let w = take(n * n);
    let u_free = take(n);
    let (mut lo, mut hi) = (take(n), take(n));
    if rule.is(Rule::BendBoundsSwapped) {
        std::mem::swap(&mut lo, &mut hi);
    }
    let (scale, nu, motion) = (take(n), take(n), take(coords * n));
    let tolerance = take(1)[0];
    Bend {
        w,
        u_free,
        lo,
        hi,
        scale,
        nu,
        motion,
        tolerance,
    }
}
