//! The writer of document 02's chained bend file (W1): 1 to 40 steps, oldest
//! first, with no free bytes, and refusals 15, 3, 4 and 10.

use super::chain::{LINK, MOST};
use super::rule::Rule;

/// What the writer is lent: for each step, oldest first, its rows, coordinates
/// and how many of the values are its own. The first step has the first
/// values, the second the next ones, and so on.
#[derive(Clone, Copy, Debug)]
pub struct Pull<'a> {
    pub rows: &'a [usize],
    pub coords: &'a [usize],
    pub counts: &'a [usize],
    pub values: &'a [f64],
}

/// The bytes of a step besides its values: link and trailer.
const FRAME: usize = LINK + 16;

impl Pull<'_> {
    fn steps(&self) -> usize {
        self.rows.len()
    }

    /// The place of a step's first value.
    fn first(&self, step: usize) -> usize {
        self.counts[..step]
            .iter()
            .fold(0, |sum: usize, &count| sum.saturating_add(count))
    }

    /// Rows or coordinates out of their range.
    fn three(&self, step: usize, rule: Rule) -> bool {
        let (n, coords) = (self.rows[step], self.coords[step]);
        let coords_wide = coords > 65_535
            && !matches!(rule, Rule::WriterCoordsUnbounded | Rule::WriterCoordsFour);
        n > 32 || coords_wide || coords.saturating_mul(n) > 2_048
    }

    /// A count that is not the shape's, or values that run out.
    fn four(&self, step: usize, rule: Rule) -> bool {
        let (n, coords) = (self.rows[step] as u128, self.coords[step] as u128);
        let count = self.counts[step];
        let left = self.values.len().saturating_sub(self.first(step));
        let wrong = match rule {
            Rule::WriterCountUnchecked => false,
            Rule::WriterCountAtLeast => (count as u128) < n * n + 5 * n + coords * n + 1,
            _ => count as u128 != n * n + 5 * n + coords * n + 1,
        };
        let short = left < count && !rule.is(Rule::WriterValuesRunOut);
        let coords_wide = rule.is(Rule::WriterCoordsFour) && coords > 65_535;
        wrong || short || coords_wide
    }

    /// The first refusal of one step, or 0.
    fn number(&self, step: usize, rule: Rule) -> u32 {
        match (self.three(step, rule), self.four(step, rule)) {
            (true, true) if rule.is(Rule::WriterFourBeforeThree) => 4,
            (true, _) => 3,
            (false, true) => 4,
            (false, false) => 0,
        }
    }

    /// The first refusal of all steps, oldest first, or 0.
    fn refusal(&self, rule: Rule) -> u32 {
        let mut numbers: Vec<u32> = (0..self.steps()).map(|k| self.number(k, rule)).collect();
        if rule.is(Rule::WriterNewestFirst) {
            numbers.reverse();
        }
        if rule.is(Rule::WriterThreesFirst) && numbers.contains(&3) {
            return 3;
        }
        if rule.is(Rule::WriterFirstStepAlone) {
            numbers.truncate(1);
        }
        numbers.into_iter().find(|&number| number != 0).unwrap_or(0)
    }

    /// How long the file is.
    fn length(&self) -> usize {
        self.counts.iter().fold(0, |sum: usize, &count| {
            sum.saturating_add(FRAME)
                .saturating_add(count.saturating_mul(8))
        })
    }
}

/// Writes a pull, and gives the file's length; or gives the number of the
/// first refusal and writes nothing.
pub fn write(pull: &Pull, out: &mut [u8], rule: Rule) -> Result<usize, u32> {
    let most = match rule {
        Rule::WriterMost39 => MOST - 1,
        Rule::WriterMost41 => MOST + 1,
        _ => MOST,
    };
    let none = pull.steps() == 0 && !rule.is(Rule::WriterNoneTaken);
    let fifteen = none || pull.steps() > most;
    if fifteen && !rule.is(Rule::WriterFifteenLast) {
        return Err(15);
    }
    let short = pull.length() > out.len()
        || (rule.is(Rule::WriterTenAtEqual) && pull.length() == out.len());
    if short && rule.is(Rule::WriterTenFirst) {
        return Err(10);
    }
    match pull.refusal(rule) {
        0 => (),
        number => return Err(number),
    }
    if fifteen {
        return Err(15);
    }
    if short && !rule.is(Rule::WriterTenWrites) {
        return Err(10);
    }
    let file = file(pull, rule);
    if short {
        let room = out.len();
        out.copy_from_slice(&file[..room]);
        return Err(10);
    }
    out[..file.len()].copy_from_slice(&file);
    if rule.is(Rule::WriterRestCleared) {
        out[file.len()..].fill(0);
    }
    Ok(file.len())
}

/// The file's bytes.
fn file(pull: &Pull, rule: Rule) -> Vec<u8> {
    let mut bytes: Vec<u8> = Vec::with_capacity(pull.length());
    let mut order: Vec<usize> = (0..pull.steps()).collect();
    if rule.is(Rule::WriterOrderReversed) {
        order.reverse();
    }
    let mut previous = 0;
    for step in order {
        let end = bytes.len();
        let link = match rule {
            Rule::WriterLinkToTrailer => end.saturating_sub(16),
            Rule::WriterLinkToStep => previous,
            _ => end,
        };
        previous = end;
        push_link(&mut bytes, link as u32, rule);
        let first = pull.first(step);
        for place in first..first + pull.counts[step] {
            let value = pull.values.get(place).copied().unwrap_or(0.0);
            bytes.extend(bits(value, rule).to_le_bytes());
        }
        let start = match rule {
            Rule::WriterStartZero => 0,
            Rule::WriterStartAbsolute => end + LINK,
            _ => LINK,
        };
        bytes.extend((start as u32).to_le_bytes());
        bytes.extend((pull.rows[step] as u16).to_le_bytes());
        bytes.extend((pull.coords[step] as u16).to_le_bytes());
        bytes.extend((pull.counts[step] as u32).to_le_bytes());
        bytes.extend(b"BEND");
    }
    bytes
}

fn push_link(bytes: &mut Vec<u8>, link: u32, rule: Rule) {
    if rule.is(Rule::WriterLinkBigEndian) {
        bytes.extend(link.to_be_bytes());
    } else {
        bytes.extend(link.to_le_bytes());
    }
}

/// A value's bits, any NaN as one.
fn bits(value: f64, rule: Rule) -> u64 {
    if value.is_nan() && !rule.is(Rule::WriterNanKept) {
        0x7FF8_0000_0000_0000
    } else {
        value.to_bits()
    }
}
