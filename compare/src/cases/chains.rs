//! Chained bend files, whole and damaged.

use super::chain_examples::examples;
use super::random::Rng;
use crate::reference::chain::{LONGEST, MOST};

/// A file, the steps that are asked for, and the lengths of what is lent.
#[derive(Clone, Debug)]
pub struct Case {
    pub file: Vec<u8>,
    /// The worked example's number, where it is one.
    pub example: Option<usize>,
    pub asked: Vec<usize>,
    pub steps_len: usize,
    pub ends_len: usize,
    /// The lengths of w, u_free, lo, hi, scale, nu, motion, shape and
    /// tolerance.
    pub lent: [usize; 9],
}

/// The fewest places of w, u_free, lo, hi, scale, nu, motion, shape and
/// tolerance.
pub const LENT: [usize; 9] = [1_024, 32, 32, 32, 32, 32, 2_048, 2, 1];

impl Case {
    /// Buffers long enough, some with a rest that must stay; the newest step,
    /// one by chance and, at times, one that there is not, are asked for.
    fn of(rng: &mut Rng, file: Vec<u8>) -> Self {
        let mut asked = vec![rng.below(6)];
        if rng.chance(40) {
            asked.push(0);
        }
        if rng.chance(20) {
            asked.push(rng.below(MOST + 2));
        }
        if rng.chance(5) {
            asked.push(rng.pick(&[1 << 32, usize::MAX, 1 << 63, (1 << 32) + 1]));
        }
        Case {
            file,
            example: None,
            asked,
            steps_len: 1 + rng.pick(&[0, 0, 2]),
            ends_len: MOST + rng.pick(&[0, 0, 1, 3]),
            lent: LENT.map(|length| length + rng.pick(&[0, 0, 0, 1])),
        }
    }
}

type Make = fn(&mut Rng) -> Vec<u8>;

/// The families of files by name.
const FILES: &[(&str, Make)] = &[
    ("chain/whole", whole),
    ("chain/damaged", damaged),
    ("chain/many", many),
    ("chain/short", short),
    ("chain/links", links),
    ("chain/limits", limits),
    ("chain/noise", noise),
];

const EXAMPLES: &str = "chain/examples";
const LENGTHS: &str = "chain/lengths";

/// The names of all families.
pub fn families() -> Vec<&'static str> {
    let files = FILES.iter().map(|&(name, _)| name);
    files.chain([EXAMPLES, LENGTHS]).collect()
}

pub fn case(family: &str, rng: &mut Rng) -> Option<Case> {
    if family == EXAMPLES {
        return Some(example(rng));
    }
    if family == LENGTHS {
        return Some(lengths(rng));
    }
    let (_, make) = FILES.iter().find(|&&(name, _)| name == family)?;
    let file = make(rng);
    Some(Case::of(rng, file))
}

/// A worked example; the long ones more rarely than the others.
fn example(rng: &mut Rng) -> Case {
    let reads = &examples().reads;
    let mut which = rng.below(reads.len());
    if reads[which].file.len() > 2_000 && rng.chance(80) {
        which = rng.below(reads.len());
    }
    let read = &reads[which];
    let mut case = Case::of(rng, read.file.clone());
    case.example = Some(read.number);
    case
}

/// One step with the bytes before it, its fields right or not.
#[derive(Clone)]
struct Part {
    free: Vec<u8>,
    link: u32,
    values: Vec<u64>,
    start: u32,
    rows: u16,
    coords: u16,
    count: u32,
    mark: [u8; 4],
}

impl Part {
    /// A step of this shape, its link and start not yet set.
    fn of(rng: &mut Rng, rows: u16, coords: u16, free: Vec<u8>) -> Self {
        let (n, c) = (u32::from(rows), u32::from(coords));
        let count = n * n + 5 * n + c * n + 1;
        Part {
            free,
            link: 0,
            values: (0..count).map(|_| pattern(rng)).collect(),
            start: 0,
            rows,
            coords,
            count,
            mark: *b"BEND",
        }
    }

    fn length(&self) -> usize {
        self.free.len() + 4 + 8 * self.values.len() + 16
    }

    fn put(&self, bytes: &mut Vec<u8>) {
        bytes.extend(&self.free);
        bytes.extend(self.link.to_le_bytes());
        self.values
            .iter()
            .for_each(|v| bytes.extend(v.to_le_bytes()));
        bytes.extend(self.start.to_le_bytes());
        bytes.extend(self.rows.to_le_bytes());
        bytes.extend(self.coords.to_le_bytes());
        bytes.extend(self.count.to_le_bytes());
        bytes.extend(self.mark);
    }
}

/// The bits of a value: mostly some number, at times NaN of any pattern.
fn pattern(rng: &mut Rng) -> u64 {
    match rng.below(16) {
        0 => rng.special().to_bits(),
        1 => 0x7FF0_0000_0000_0000 | rng.next() >> 12 | (rng.next() & 1 << 63),
        _ => rng.next(),
    }
}

/// Links and starts as they must be; `parts` has the oldest step first.
fn link_up(parts: &mut [Part]) {
    let mut end = 0;
    for part in parts {
        part.link = end as u32;
        part.start = part.free.len() as u32 + 4;
        end += part.length();
    }
}

fn joined(parts: &[Part]) -> Vec<u8> {
    let mut bytes = Vec::with_capacity(parts.iter().map(Part::length).sum());
    parts.iter().for_each(|part| part.put(&mut bytes));
    bytes
}

/// Mostly few rows, at times up to 32; with no rows any number of coordinates.
fn shape(rng: &mut Rng) -> (u16, u16) {
    let n = match rng.below(20) {
        0..=8 => 0,
        9..=17 => rng.pick(&[1, 1, 2, 3, 5]),
        18 => rng.below(33) as u16,
        _ => rng.pick(&[16, 31, 32]),
    };
    let most = 2_048u16.checked_div(n).unwrap_or(u16::MAX);
    let coords = match rng.below(8) {
        0 if n < 6 => rng.pick(&[most, most - 1, most / 2]),
        1 => most.min(7),
        _ => rng.below(3) as u16,
    };
    (n, coords)
}

/// Free bytes: none, some, or bytes that look like a step's end.
fn free(rng: &mut Rng) -> Vec<u8> {
    match rng.below(10) {
        0..=5 => Vec::new(),
        6 | 7 => {
            let length = rng.pick(&[1, 3, 4, 7, 15, 16, 17, 28, 60]);
            (0..length).map(|_| rng.next() as u8).collect()
        }
        8 => {
            let mut bytes = vec![0; rng.below(9)];
            Part::of(rng, 0, 0, Vec::new()).put(&mut bytes);
            bytes
        }
        _ => vec![rng.pick(&[0, 0xFF, 0x42]); rng.below(40)],
    }
}

fn chain(rng: &mut Rng, steps: usize) -> Vec<Part> {
    let mut parts: Vec<Part> = (0..steps)
        .map(|_| {
            let (rows, coords) = shape(rng);
            let free = free(rng);
            Part::of(rng, rows, coords, free)
        })
        .collect();
    link_up(&mut parts);
    parts
}

fn some_steps(rng: &mut Rng) -> usize {
    match rng.below(20) {
        0 => rng.pick(&[39, 40, 41]),
        1..=3 => 1 + rng.below(MOST),
        _ => rng.pick(&[1, 1, 2, 2, 3, 4, 5, 6]),
    }
}

fn whole(rng: &mut Rng) -> Vec<u8> {
    let steps = some_steps(rng);
    joined(&chain(rng, steps))
}

/// A chain of up to six steps with one or two things wrong.
fn damaged(rng: &mut Rng) -> Vec<u8> {
    let steps = 1 + rng.below(6);
    let mut parts = chain(rng, steps);
    for _ in 0..rng.pick(&[1, 1, 1, 2, 3]) {
        let which = rng.below(steps);
        damage(rng, &mut parts, which);
    }
    let mut bytes = joined(&parts);
    if rng.chance(15) {
        damage_bytes(rng, &mut bytes);
    }
    bytes
}

/// Bytes cut off, put in, taken out or changed.
fn damage_bytes(rng: &mut Rng, bytes: &mut Vec<u8>) {
    let end = bytes.len();
    match rng.below(4) {
        0 => bytes.truncate(rng.below(end + 1)),
        1 => bytes.insert(rng.below(end + 1), rng.next() as u8),
        2 => bytes.drain(..1 + rng.below(end.min(20))).for_each(drop),
        _ => bytes[end - 1 - rng.below(end.min(32))] ^= 1 << rng.below(8),
    }
}

/// One field of one step made wrong, or moved to the edge of what is right.
fn damage(rng: &mut Rng, parts: &mut [Part], which: usize) {
    let before: usize = parts[..which].iter().map(Part::length).sum();
    let part = &mut parts[which];
    match rng.below(8) {
        0..=3 => {
            let own = (before + part.free.len()) as u32;
            part.link = wrong_link(rng, part.link, own);
            if rng.chance(60) {
                // The length rule holds, so that the linked bytes are read.
                part.start = (own + 4).wrapping_sub(part.link);
            }
        }
        4 => part.start = wrong_start(rng, part, before as u32),
        5 => {
            let count = part.count;
            let wraps = count | 1 << 29;
            part.count = rng.pick(&[count + 1, count.wrapping_sub(1), 0, wraps, u32::MAX]);
        }
        6 => {
            let (rows, coords) = (part.rows, part.coords);
            part.rows = rng.pick(&[rows, 33, rows + 1, rows << 8, 0xFFFF, 32]);
            part.coords = rng.pick(&[coords, coords.wrapping_add(1), 65, 2_049, 0xFFFF]);
            if rng.chance(50) {
                let (n, c) = (u32::from(part.rows), u32::from(part.coords));
                part.count = n.wrapping_mul(n + 5 + c).wrapping_add(1);
            }
        }
        _ => part.mark[rng.below(4)] ^= 1 << rng.below(8),
    }
}

fn wrong_link(rng: &mut Rng, link: u32, own: u32) -> u32 {
    let near = rng.below(16) as u32;
    let back = rng.below(own as usize + 1) as u32;
    rng.pick(&[
        0,
        near,
        near,
        16 + near,
        16,
        link.wrapping_sub(1),
        link + 1,
        link.wrapping_sub(16),
        link.swap_bytes(),
        link | 1 << 16,
        own,
        own.wrapping_sub(1),
        own + 1,
        own + 4,
        own + 5,
        back,
        back,
        u32::MAX,
        1 << 31,
    ])
}

/// Starts counted from elsewhere than the linked offset.
fn wrong_start(rng: &mut Rng, part: &Part, before: u32) -> u32 {
    let start = part.start;
    rng.pick(&[
        0,
        4,
        start + before,
        start - 4,
        start + 4,
        start + 1,
        start - 1,
        before,
        4u32.wrapping_neg(),
        start | 1 << 31,
    ])
}

/// 38 to 42 small steps, with something wrong at or past the oldest one that
/// may be read, or in the newest.
fn many(rng: &mut Rng) -> Vec<u8> {
    let steps = rng.pick(&[38, 39, 40, 40, 41, 41, 42]);
    let mut parts: Vec<Part> = (0..steps)
        .map(|_| {
            let free = vec![0x5A; rng.pick(&[0, 0, 0, 1, 4])];
            let coords = rng.pick(&[0, 0, 9]);
            Part::of(rng, 0, coords, free)
        })
        .collect();
    link_up(&mut parts);
    match rng.below(6) {
        0 | 1 => (),
        2 | 3 => {
            // The oldest step's link is one of 1 to 27.
            let link = 1 + rng.below(27);
            parts[0].free = vec![rng.pick(&[0, 0x5A]); link + rng.below(3)];
            link_up(&mut parts);
            parts[0].link = link as u32;
            parts[0].start -= link as u32;
        }
        4 => {
            let which = steps - 39 + rng.below(3).min(38);
            damage(rng, &mut parts, which.min(steps - 1));
        }
        _ => {
            let which = rng.pick(&[0, 1, steps - 1]);
            damage(rng, &mut parts, which);
        }
    }
    joined(&parts)
}

/// A trailer whose numbers begin at or around the file's first bytes.
fn short(rng: &mut Rng) -> Vec<u8> {
    let (rows, coords) = rng.pick(&[(0, 0), (0, 7), (1, 0), (1, 2), (2, 1)]);
    let mut part = Part::of(rng, rows, coords, Vec::new());
    let place = rng.between(-9, 24);
    let link = match rng.below(3) {
        0 => 0,
        1 => rng.below(28) as u32,
        _ => (place - 4 + rng.between(-1, 1)).max(0) as u32,
    };
    part.link = link;
    part.free = vec![rng.pick(&[0, 0x31]); (place - 4).max(0) as usize];
    let right = (place - i64::from(link)) as u32;
    part.start = rng.pick(&[right, right, right, right.wrapping_add(1), 4, 0]);
    if rng.chance(15) {
        part.count = rng.pick(&[0, part.count + 1, part.count - 1]);
    }
    let mut bytes = Vec::new();
    part.put(&mut bytes);
    if place < 4 {
        bytes.drain(..(4 - place) as usize).for_each(drop);
    }
    if rng.chance(10) {
        damage_bytes(rng, &mut bytes);
    }
    bytes
}

/// One right step whose link points into bytes that may or may not be a step:
/// bare trailers, steps with too few bytes before them, other marks.
fn links(rng: &mut Rng) -> Vec<u8> {
    let mut bytes = match rng.below(4) {
        0 => (0..rng.below(64)).map(|_| rng.next() as u8).collect(),
        _ => short(rng),
    };
    let front = bytes.len() as i64;
    let link = match rng.below(4) {
        0 => rng.below(40) as i64,
        1 => front + rng.between(-2, 1),
        _ => front,
    };
    let (rows, coords) = rng.pick(&[(0, 0), (0, 0), (1, 0)]);
    let free = vec![0x77; rng.pick(&[0, 0, 1, 16])];
    let mut part = Part::of(rng, rows, coords, free);
    part.link = link.max(0) as u32;
    let place = front + part.free.len() as i64 + 4;
    part.start = (place - i64::from(part.link)) as u32;
    if rng.chance(10) {
        part.start = rng.pick(&[4, 0, place as u32, part.start + 1]);
    }
    part.put(&mut bytes);
    bytes
}

/// Files at and around the old and the new longest length, and steps at and
/// around the largest.
fn limits(rng: &mut Rng) -> Vec<u8> {
    match rng.below(16) {
        0 => {
            let length = rng.pick(&[LONGEST - 1, LONGEST, LONGEST, LONGEST + 1]);
            filled(rng, length)
        }
        1..=6 => {
            let length = rng.pick(&[65_535, 65_536, 65_537, 65_540, 70_000]);
            filled(rng, length)
        }
        7..=14 => {
            let rows = rng.pick(&[31, 32, 33]);
            let most = 2_048 / rows;
            let coords = rng.pick(&[0, most, most + 1]);
            let mut parts = vec![
                Part::of(rng, rows, coords, Vec::new()),
                Part::of(rng, 0, 0, Vec::new()),
            ];
            parts.rotate_left(rng.below(2));
            link_up(&mut parts);
            joined(&parts)
        }
        _ => largest(rng),
    }
}

/// One to three small steps in a file of this length, the rest free.
fn filled(rng: &mut Rng, length: usize) -> Vec<u8> {
    let steps = 1 + rng.below(3);
    let mut parts: Vec<Part> = (0..steps)
        .map(|_| Part::of(rng, 0, 0, Vec::new()))
        .collect();
    let used: usize = parts.iter().map(Part::length).sum();
    let which = rng.below(steps);
    parts[which].free = vec![rng.pick(&[0, 0x11]); length - used];
    link_up(&mut parts);
    joined(&parts)
}

/// 40 of the largest steps, at times with free bytes up to the longest length
/// or one past it.
fn largest(rng: &mut Rng) -> Vec<u8> {
    let part = Part::of(rng, 32, 64, Vec::new());
    let mut parts = vec![part; MOST];
    let used: usize = parts.iter().map(Part::length).sum();
    let free = rng.pick(&[0, LONGEST - used, LONGEST - used + 1]);
    parts[rng.below(MOST)].free = vec![0; free];
    link_up(&mut parts);
    joined(&parts)
}

/// Small numbers and marks by chance.
fn noise(rng: &mut Rng) -> Vec<u8> {
    let length = rng.below(200);
    let mut bytes: Vec<u8> = (0..length)
        .map(|_| match rng.below(8) {
            0 => rng.below(64) as u8,
            1 => rng.next() as u8,
            _ => 0,
        })
        .collect();
    for _ in 0..rng.below(4) {
        let from = rng.below(length + 1);
        for (byte, mark) in bytes[from..]
            .iter_mut()
            .zip([1, 0, 0, 0, 0x42, 0x45, 0x4E, 0x44])
        {
            *byte = mark;
        }
    }
    if rng.chance(80) && length >= 8 {
        bytes[length - 8..].copy_from_slice(&[1, 0, 0, 0, 0x42, 0x45, 0x4E, 0x44]);
    }
    bytes
}

/// A small file, right or wrong, with lengths at and around their fewest.
fn lengths(rng: &mut Rng) -> Case {
    let file = if rng.chance(70) {
        whole(rng)
    } else {
        links(rng)
    };
    let mut case = Case::of(rng, file);
    match rng.below(3) {
        0 => case.steps_len = rng.below(3),
        1 => case.ends_len = rng.pick(&[0, 1, 2, 39, 40, 41]),
        _ => {
            for _ in 0..rng.pick(&[1, 1, 2]) {
                let which = rng.below(LENT.len());
                let right = LENT[which];
                case.lent[which] = rng.pick(&[0, right - 1, right, right + 1]);
            }
        }
    }
    case
}
