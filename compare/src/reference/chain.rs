//! Document 02's chained bend file (W1): the steps of a whole pull in one
//! file, read newest first, with refusals 1 to 4, 14 and 15.

use super::bend::{numbers, Bend, Trailer, TRAILER};
use super::rule::Rule;

/// The longest file.
pub const LONGEST: usize = 1_048_576;

/// The most steps.
pub const MOST: usize = 40;

/// The length of a link.
pub const LINK: usize = 4;

/// Where a step lies, and its shape.
#[derive(Clone, Copy, Debug)]
pub struct Step {
    /// Where its trailer ends.
    pub end: usize,
    /// Where its numbers begin.
    pub place: usize,
    /// Where the previous step's trailer ends; 0 for the first step.
    pub link: usize,
    pub rows: usize,
    pub coords: usize,
}

/// The steps found before the first refusal, newest first.
#[derive(Clone, Debug)]
pub struct Walk {
    pub steps: Vec<Step>,
    /// 0, or the number of the refusal; it is the whole file's.
    pub number: u32,
}

/// Reads the steps' trailers and links, newest first, until a link of 0.
pub fn walk(file: &[u8], rule: Rule) -> Walk {
    let mut walk = Walk {
        steps: Vec::new(),
        number: 0,
    };
    let mut end = file.len();
    loop {
        match step_ending_at(file, end, walk.steps.len(), rule) {
            Ok(step) => {
                walk.steps.push(step);
                end = step.link;
            }
            Err(number) => {
                walk.number = number;
                return walk;
            }
        }
        if end == 0 || (rule.is(Rule::ShortLinkEnds) && end < TRAILER) {
            break;
        }
    }
    if rule.is(Rule::StepsOldestFirst) {
        walk.steps.reverse();
    }
    walk
}

/// The step whose trailer ends there, `newer` steps having been read, or the
/// number of its first refusal.
fn step_ending_at(file: &[u8], end: usize, newer: usize, rule: Rule) -> Result<Step, u32> {
    let too_many = newer >= most(rule);
    let late = matches!(rule, Rule::FifteenAfterOne | Rule::FifteenAfterTwo);
    if too_many && !late {
        return Err(15);
    }
    if wrong_end(end, newer, rule) {
        return Err(1);
    }
    if too_many && rule.is(Rule::FifteenAfterOne) {
        return Err(15);
    }
    let bytes = &file[end - TRAILER..end];
    if &bytes[12..] != b"BEND" {
        return Err(2);
    }
    if too_many {
        return Err(15);
    }
    let trailer = Trailer::of(bytes);
    if trailer.too_large(rule) {
        return Err(3);
    }
    let place = end as i64 - TRAILER as i64 - 8 * i64::from(trailer.count);
    if rule.is(Rule::FourteenBeforeCount) && place < LINK as i64 {
        return Err(14);
    }
    if trailer.count_wrong() {
        return Err(4);
    }
    let link = linked(file, place, end, &trailer, rule)?;
    Ok(Step {
        end,
        place: place.max(0) as usize,
        link,
        rows: usize::from(trailer.n),
        coords: usize::from(trailer.coords),
    })
}

fn most(rule: Rule) -> usize {
    match rule {
        Rule::ChainMost39 => MOST - 1,
        Rule::ChainMost41 => MOST + 1,
        _ => MOST,
    }
}

/// Refusal 1: the file's own length, or the end of a step that a link names.
fn wrong_end(end: usize, newer: usize, rule: Rule) -> bool {
    let longest = match rule {
        Rule::ChainOldLimit => 65_536,
        Rule::ChainLongestHigh => LONGEST + 1,
        Rule::ChainLongestLow => LONGEST - 1,
        _ => LONGEST,
    };
    let shortest = match (rule, newer) {
        (Rule::ChainShortest, 0) => TRAILER + 1,
        (Rule::LinkSixteenShort, 1..) => TRAILER + 1,
        _ => TRAILER,
    };
    end < shortest || end > longest
}

/// The link of a step, or the refusal by 14 or by 4's length rule.
fn linked(
    file: &[u8],
    place: i64,
    end: usize,
    trailer: &Trailer,
    rule: Rule,
) -> Result<usize, u32> {
    let link = link_before(file, place, rule);
    if rule.is(Rule::FourteenAfterLength) {
        length_rule(link.unwrap_or(0), end, trailer, rule)?;
    }
    if rule.is(Rule::NumbersOutsideFour) && place < 0 {
        return Err(4);
    }
    let Some(link) = link else {
        return Err(if rule.is(Rule::NoLinkFour) { 4 } else { 14 });
    };
    let own = place - LINK as i64;
    let above = match rule {
        Rule::LinkUpToNumbers => link as i64 > place,
        Rule::LinkBelowOnly => link != 0 && link as i64 >= own,
        _ => link as i64 > own,
    };
    if above {
        return Err(14);
    }
    if rule.is(Rule::OneWhereRead) && link != 0 && link < TRAILER {
        return Err(1);
    }
    length_rule(link, end, trailer, rule)?;
    Ok(link)
}

/// The four bytes before the numbers, where there are four.
fn link_before(file: &[u8], place: i64, rule: Rule) -> Option<usize> {
    let own = usize::try_from(place - LINK as i64).ok()?;
    let from = if rule.is(Rule::LinkAtFront) { 0 } else { own };
    let bytes: [u8; LINK] = file.get(from..from + LINK)?.try_into().ok()?;
    let link = match rule {
        Rule::LinkBigEndian => u32::from_be_bytes(bytes),
        Rule::LinkSixteenBits => u32::from_le_bytes(bytes) & 0xFFFF,
        _ => u32::from_le_bytes(bytes),
    };
    Some(link as usize)
}

/// Refusal 4 by the length rule, which counts from the linked offset.
fn length_rule(link: usize, end: usize, trailer: &Trailer, rule: Rule) -> Result<(), u32> {
    let from = if rule.is(Rule::LengthFromZero) {
        0
    } else {
        link
    };
    let skipped = if rule.is(Rule::StartPastLink) {
        LINK
    } else {
        0
    };
    let start = i64::from(trailer.start) + skipped as i64;
    let whole = start + 8 * i64::from(trailer.count) + TRAILER as i64;
    let broken = whole != end as i64 - from as i64 && !rule.is(Rule::ChainLengthUnchecked);
    let free = rule.is(Rule::ChainNoFreeBytes) && start != LINK as i64;
    if broken || free {
        Err(4)
    } else {
        Ok(())
    }
}

/// A step by its number, 0 being the newest: its shape and numbers, `None`
/// where there is no such step, or the file's refusal.
pub fn read_step(file: &[u8], number: usize, rule: Rule) -> Result<Option<(Step, Bend)>, u32> {
    let walk = walk(file, rule);
    let read_already = rule.is(Rule::OlderStepsUnread) && number < walk.steps.len();
    if walk.number != 0 && !read_already {
        return Err(walk.number);
    }
    let number = match rule {
        Rule::StepPastIsOldest => number.min(walk.steps.len() - 1),
        Rule::StepsFromOne => number.wrapping_sub(1),
        _ => number,
    };
    Ok(walk.steps.get(number).map(|&step| {
        let place = if rule.is(Rule::NumbersFromFront) {
            step.place - step.link
        } else {
            step.place
        };
        let mut bend = numbers(file, place, step.rows, step.coords, rule);
        if rule.is(Rule::StepBoundsSwapped) {
            std::mem::swap(&mut bend.lo, &mut bend.hi);
        }
        (step, bend)
    }))
}
