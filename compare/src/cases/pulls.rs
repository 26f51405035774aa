//! Pulls to be written as chained bend files, right and wrong.

use super::chain_examples::examples;
use super::random::Rng;
use crate::reference::chain::MOST;

/// A pull, oldest step first, and the lengths of what is lent with it.
#[derive(Clone, Debug, Default)]
pub struct Case {
    pub rows: Vec<usize>,
    pub coords: Vec<usize>,
    pub counts: Vec<usize>,
    pub values: Vec<f64>,
    pub out_len: usize,
    pub written_len: usize,
    /// The worked example's number, where it is one.
    pub example: Option<usize>,
}

impl Case {
    /// A pull of these shapes with counts and values that are theirs, and just
    /// the room that it takes.
    fn of(rng: &mut Rng, shapes: &[(usize, usize)]) -> Self {
        let mut case = Case {
            written_len: 1,
            ..Case::default()
        };
        for &(rows, coords) in shapes {
            let count = right_count(rows, coords);
            case.rows.push(rows);
            case.coords.push(coords);
            case.counts.push(count);
            case.values.extend((0..count).map(|_| value(rng)));
        }
        case.out_len = case.right_room();
        case
    }

    /// The room that the counts ask for.
    fn right_room(&self) -> usize {
        self.counts.iter().map(|count| 20 + 8 * count).sum()
    }

    fn steps(&self) -> usize {
        self.rows.len()
    }
}

fn right_count(rows: usize, coords: usize) -> usize {
    rows * rows + 5 * rows + coords * rows + 1
}

type Make = fn(&mut Rng) -> Case;

/// The families by name.
pub const FAMILIES: &[(&str, Make)] = &[
    ("pull/examples", example),
    ("pull/whole", whole),
    ("pull/shapes", shapes),
    ("pull/counts", counts),
    ("pull/numbers", numbers),
    ("pull/lengths", lengths),
    ("pull/largest", largest),
];

/// A value; at times a NaN of any pattern.
fn value(rng: &mut Rng) -> f64 {
    match rng.below(16) {
        0 => rng.special(),
        1 => f64::from_bits(0x7FF0_0000_0000_0000 | rng.next() >> 12 | (rng.next() & 1 << 63)),
        _ => f64::from_bits(rng.next()),
    }
}

/// A worked example; the long ones more rarely than the others.
fn example(rng: &mut Rng) -> Case {
    let writes = &examples().writes;
    let mut which = rng.below(writes.len());
    if writes[which].room > 2_000 && rng.chance(80) {
        which = rng.below(writes.len());
    }
    let write = &writes[which];
    let of = |field: fn(&super::chain_examples::Step) -> usize| write.steps.iter().map(field);
    let values = write.steps.iter().flat_map(|step| &step.values);
    Case {
        rows: of(|step| step.rows).collect(),
        coords: of(|step| step.coords).collect(),
        counts: of(|step| step.count).collect(),
        values: values.map(|&bits| f64::from_bits(bits)).collect(),
        out_len: write.room,
        written_len: 1,
        example: Some(write.number),
    }
}

/// Mostly few rows, at times up to 32; with no rows any number of coordinates.
fn shape(rng: &mut Rng) -> (usize, usize) {
    let n = match rng.below(20) {
        0..=7 => 0,
        8..=17 => rng.pick(&[1, 1, 2, 3, 5]),
        18 => rng.below(33),
        _ => rng.pick(&[31, 32]),
    };
    let most = 2_048usize.checked_div(n).unwrap_or(65_535);
    let coords = match rng.below(8) {
        0 if n < 6 => rng.pick(&[most, most - 1, most / 2]),
        1 => most.min(7),
        _ => rng.below(3),
    };
    (n, coords)
}

fn pull(rng: &mut Rng, steps: usize) -> Case {
    let shapes: Vec<_> = (0..steps).map(|_| shape(rng)).collect();
    Case::of(rng, &shapes)
}

fn few(rng: &mut Rng) -> usize {
    rng.pick(&[1, 1, 2, 2, 3, 4, 5])
}

/// Right pulls with room just enough, to spare or short.
fn whole(rng: &mut Rng) -> Case {
    let steps = if rng.chance(15) {
        1 + rng.below(MOST)
    } else {
        few(rng)
    };
    let mut case = pull(rng, steps);
    if rng.chance(40) {
        case.out_len += rng.pick(&[1, 2, 16, 40]);
    } else if rng.chance(30) {
        case.out_len -= rng.pick(&[1, 1, 8, 20, 28]).min(case.out_len);
    } else if rng.chance(5) {
        case.out_len = 0;
    }
    if rng.chance(30) {
        let spare = rng.pick(&[1, 2, 9]);
        case.values.extend((0..spare).map(|_| value(rng)));
    }
    case.written_len += rng.pick(&[0, 0, 0, 1]);
    case
}

/// Shapes at and past each limit, their counts right or not.
fn shapes(rng: &mut Rng) -> Case {
    let steps = few(rng);
    let mut case = pull(rng, steps);
    for _ in 0..rng.pick(&[1, 1, 2, 3]) {
        let which = rng.below(steps);
        let rows = rng.pick(&[0, 0, 0, 1, 2, 32, 33, 64, 1 << 16, usize::MAX]);
        let coords = rng.pick(&[
            0,
            64,
            65,
            1_024,
            1_025,
            2_048,
            2_049,
            65_535,
            65_536,
            65_537,
            1 << 32,
            1 << 59,
            usize::MAX,
        ]);
        case.rows[which] = rows;
        case.coords[which] = coords;
        if rng.chance(70) {
            let square = rows.wrapping_mul(rows.wrapping_add(coords).wrapping_add(5));
            case.counts[which] = square.wrapping_add(1);
        }
    }
    settle(rng, &mut case);
    case
}

/// Counts that are not the shape's, and values that run out.
fn counts(rng: &mut Rng) -> Case {
    let steps = few(rng);
    let mut case = pull(rng, steps);
    let which = rng.below(steps);
    let count = case.counts[which];
    match rng.below(4) {
        0 => {
            let left = case.values.len() - rng.below(4).min(case.values.len());
            case.values.truncate(left);
        }
        1 => case.values.truncate(rng.below(case.values.len() + 1)),
        2 => {
            let wrong = [
                0,
                count - 1,
                count + 1,
                count + 8,
                1 << 32,
                1 << 61,
                usize::MAX,
            ];
            case.counts[which] = rng.pick(&wrong);
            if rng.chance(60) {
                settle(rng, &mut case);
            }
        }
        _ => {
            case.counts[which] = rng.pick(&[count + 1, count.saturating_sub(1)]);
            let other = rng.below(steps);
            case.rows[other] = rng.pick(&[33, case.rows[other]]);
            settle(rng, &mut case);
        }
    }
    case
}

/// As many values and as much room as the counts ask for, where that is little.
fn settle(rng: &mut Rng, case: &mut Case) {
    let wanted = case
        .counts
        .iter()
        .fold(0usize, |sum, &count| sum.saturating_add(count));
    if wanted < 20_000 {
        while case.values.len() < wanted {
            case.values.push(value(rng));
        }
        case.out_len = case.right_room();
        if rng.chance(20) {
            case.out_len = case.out_len.saturating_sub(rng.pick(&[1, 100]));
        }
    }
}

/// Numbers of steps at and around 0 and 40, right or with a wrong step.
fn numbers(rng: &mut Rng) -> Case {
    let steps = rng.pick(&[0, 1, 38, 39, 40, 40, 41, 41, 42, 60]);
    let mut case = if rng.chance(10) {
        pull(rng, steps)
    } else {
        Case::of(rng, &vec![(0, 3); steps])
    };
    if steps > 0 && rng.chance(40) {
        let any = rng.below(steps);
        let which = rng.pick(&[0, steps - 1, any]);
        match rng.below(3) {
            0 => case.rows[which] = 33,
            1 => case.coords[which] = 65_536,
            _ => case.counts[which] += 1,
        }
    }
    case.out_len = match rng.below(6) {
        0 => 0,
        1 => case.out_len.saturating_sub(1),
        2 => case.out_len + 7,
        _ => case.out_len,
    };
    case
}

/// Slices of lengths that differ, and no place for the length written.
fn lengths(rng: &mut Rng) -> Case {
    let steps = rng.pick(&[0, 1, 2, 3, 40, 41]);
    let mut case = Case::of(rng, &vec![(0, 1); steps]);
    for _ in 0..rng.pick(&[1, 1, 2]) {
        let off = rng.pick(&[-2i64, -1, 1, 2]);
        let length = (case.steps() as i64 + off).max(0) as usize;
        match rng.below(5) {
            0 => case.rows.resize(length, 0),
            1 => case.coords.resize(length, 1),
            2 => case.counts.resize(length, 1),
            _ => case.written_len = rng.below(3),
        }
    }
    case
}

/// The largest steps, a few or 40 of them.
fn largest(rng: &mut Rng) -> Case {
    let steps = if rng.chance(2) { 40 } else { 1 + rng.below(2) };
    let rows = rng.pick(&[31, 32, 32, 32, 33]);
    let most = 2_048 / rows;
    let coords = rng.pick(&[most, most, most - 1, most + 1]);
    let mut case = Case::of(rng, &vec![(rows, coords); steps]);
    if rng.chance(40) {
        case.out_len = case.out_len + 1 - rng.pick(&[0, 2]);
    }
    case
}
