//! Bend files, whole and damaged.

use super::problem::Owned;
use super::random::Rng;
use super::solve;

type Make = fn(&mut Rng) -> Vec<u8>;

/// The families by name.
pub const FAMILIES: &[(&str, Make)] = &[
    ("bend/whole", whole),
    ("bend/damaged", damaged),
    ("bend/trailer", trailer_alone),
    ("bend/limits", limits),
];

/// The bytes of a file: `front` free bytes, the numbers, the trailer.
pub fn file(p: &Owned, front: &[u8]) -> Vec<u8> {
    let n = p.n();
    let coords = p.motion.len().checked_div(n).unwrap_or(0);
    let mut bytes = front.to_vec();
    let mut count = 0u32;
    let tail = [p.tolerance];
    for slice in [&p.w, &p.u_free, &p.lo, &p.hi, &p.scale, &p.nu, &p.motion]
        .map(|v| v.as_slice())
        .iter()
        .chain([&tail.as_slice()])
    {
        for v in slice.iter() {
            bytes.extend_from_slice(&v.to_le_bytes());
            count += 1;
        }
    }
    bytes.extend(trailer(front.len() as u32, n as u16, coords as u16, count));
    bytes
}

fn trailer(start: u32, n: u16, coords: u16, count: u32) -> Vec<u8> {
    let mut bytes = start.to_le_bytes().to_vec();
    bytes.extend(n.to_le_bytes());
    bytes.extend(coords.to_le_bytes());
    bytes.extend(count.to_le_bytes());
    bytes.extend(b"BEND");
    bytes
}

/// A problem of any family of solves, of at most 32 rows with lengths right.
fn problem(rng: &mut Rng) -> Owned {
    let families = solve::families();
    loop {
        let family = rng.pick(&families);
        if let Some(case) = solve::case(family, rng) {
            let p = case.problem;
            let n = p.n();
            let even = [&p.lo, &p.hi, &p.scale, &p.nu].iter().all(|v| v.len() == n);
            let motion_even = p.motion.len() <= 2_048
                && p.motion.len() % n.max(1) == 0
                && (n > 0 || p.motion.is_empty());
            if n <= 32 && p.w.len() == n * n && even && motion_even {
                return p;
            }
        }
    }
}

fn front(rng: &mut Rng) -> Vec<u8> {
    let length = rng.pick(&[0, 0, 1, 7, 16, 100]);
    (0..length).map(|_| rng.next() as u8).collect()
}

fn whole(rng: &mut Rng) -> Vec<u8> {
    let mut p = problem(rng);
    if p.n() > 0 && rng.chance(5) {
        let place = rng.below(p.n());
        p.scale[place] = rng.pick(&[0.0, f64::NAN, -1.0, f64::INFINITY]);
    }
    if rng.chance(10) && p.n() > 0 {
        // A NaN of another pattern.
        let place = rng.below(p.n());
        p.nu[place] = f64::from_bits(0xFFF0_0000_0000_0000 | (rng.next() >> 12) | 1);
    }
    let front = front(rng);
    file(&p, &front)
}

/// A whole file with bytes changed, cut off or put in.
fn damaged(rng: &mut Rng) -> Vec<u8> {
    let mut bytes = whole(rng);
    let end = bytes.len();
    match rng.below(6) {
        0 => bytes.truncate(rng.below(end + 1)),
        1 => {
            let place = end - 1 - rng.below(16);
            bytes[place] ^= 1 << rng.below(8);
        }
        2 => {
            let place = rng.below(end);
            bytes.insert(place, rng.next() as u8);
        }
        3 => bytes.drain(..rng.below(end.min(20)) + 1).for_each(drop),
        4 => {
            let place = end - 1 - rng.below(16);
            bytes[place] = rng.next() as u8;
        }
        _ => {
            let place = rng.below(end);
            bytes[place] = rng.next() as u8;
        }
    }
    bytes
}

/// A trailer with little or nothing before it: length rules met only modulo
/// 2^32, products that pass 2^16, marks wrong in a file that is wrong in other
/// ways too.
fn trailer_alone(rng: &mut Rng) -> Vec<u8> {
    let n = rng.pick(&[0, 0, 1, 2, 32, 33, 0x0100, 0x8000, 0xFFFF]);
    let coords = rng.pick(&[0, 1, 64, 65, 2_048, 2_049, 0x0800, 0x8000, 0xFFFF]);
    let right = u32::from(n)
        .wrapping_mul(u32::from(n))
        .wrapping_add(5 * u32::from(n))
        .wrapping_add(u32::from(n).wrapping_mul(u32::from(coords)))
        .wrapping_add(1);
    let count = rng.pick(&[
        right,
        right,
        right,
        1,
        0,
        right.wrapping_add(1),
        right | 1 << 29,
        u32::MAX,
    ]);
    let before = rng.pick(&[0usize, 0, 8, 16, 8 * 7]);
    let fits = (before as u32).wrapping_sub(count.wrapping_mul(8));
    let start = rng.pick(&[fits, fits, fits, 0, 8, u32::MAX, fits.wrapping_add(1)]);
    let mut bytes: Vec<u8> = (0..before).map(|_| rng.next() as u8).collect();
    bytes.extend(trailer(start, n, coords, count));
    if rng.chance(15) {
        let place = bytes.len() - 1 - rng.below(4);
        bytes[place] ^= 0x20;
    }
    bytes
}

/// Files at and around the shortest and the longest length and the most rows.
fn limits(rng: &mut Rng) -> Vec<u8> {
    match rng.below(4) {
        0 => {
            let length = rng.pick(&[0, 1, 15, 16, 17, 24]);
            let mut bytes = trailer(0, 0, 0, 0);
            bytes.truncate(length);
            bytes.resize(length, 0);
            bytes
        }
        1 => {
            let p = Owned::of(&[2.0], &[-4.0]);
            let bare = file(&p, &[]).len();
            let length = rng.pick(&[65_535, 65_536, 65_537, 65_540]);
            file(&p, &vec![0xA5; length - bare])
        }
        2 => {
            let n = rng.pick(&[31, 32, 33]);
            let mut p = Owned::plain(n);
            for i in 0..n {
                p.set(i, i, 1.0);
                p.u_free[i] = rng.lattice(-1, 1);
            }
            let coords = rng.pick(&[0, 2_048 / n, 2_048 / n + 1]);
            p.motion = vec![0.5; coords * n];
            file(&p, &[])
        }
        _ => {
            // No rows, any number of coordinates.
            let mut bytes = 0.5f64.to_le_bytes().to_vec();
            let coords = rng.pick(&[0, 1, 2_048, 2_049, 0xFFFF]);
            let n = rng.pick(&[0, 0, 0, 1]);
            bytes.extend(trailer(0, n, coords, 1));
            bytes
        }
    }
}
