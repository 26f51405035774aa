//! The program bendsolve: run on many files, with its time from start to end,
//! and the files that its replay is given.

use crate::calls::bend::expected;
use crate::cases::files::{file, FAMILIES};
use crate::cases::marked::marked_problem;
use crate::cases::random::Rng;
use std::collections::BTreeMap;
use std::fs;
use std::io::{ErrorKind, Write};
use std::path::Path;
use std::process::{Command, Stdio};
use std::time::{Duration, Instant};

/// The program, from the repository's folder, unless BENDSOLVE names another.
const PROGRAM: &str = "target/bin/bendsolve";

/// What running the program on many files found.
pub struct Found {
    pub differing: u64,
    /// The first files that differ: family, seed and index.
    pub first: Vec<String>,
    times: Vec<Duration>,
}

impl Found {
    pub fn line(&self) -> String {
        let mut times: Vec<f64> = self.times.iter().map(|t| 1e6 * t.as_secs_f64()).collect();
        times.sort_by(f64::total_cmp);
        let at = |part: usize| times.get(times.len() * part / 100).copied().unwrap_or(0.0);
        format!(
            "program bendsolve: {} files, differing {}; one run, start to end: {:.0} us (median; 1 of 100 takes over {:.0} us)",
            times.len(),
            self.differing,
            at(50),
            at(99)
        )
    }
}

/// Runs the program on so many files, of all families in turn.
pub fn runs(seed: u64, count: u64) -> Result<Found, String> {
    let program = std::env::var("BENDSOLVE").unwrap_or_else(|_| String::from(PROGRAM));
    let mut found = Found {
        differing: 0,
        first: Vec::new(),
        times: Vec::new(),
    };
    for index in 0..count {
        let (family, make) = FAMILIES[index as usize % FAMILIES.len()];
        let file = make(&mut Rng::of_case(family, seed, index));
        let start = Instant::now();
        let printed = run(&program, &file).map_err(|e| format!("{program}: {e}"))?;
        found.times.push(start.elapsed());
        if printed != expected(&file) {
            found.differing += 1;
            if found.first.len() < 5 {
                found.first.push(format!("{family} {seed} {index}"));
            }
        }
    }
    Ok(found)
}

/// What the program prints for a file.
fn run(program: &str, file: &[u8]) -> std::io::Result<Vec<u8>> {
    let mut child = Command::new(program)
        .stdin(Stdio::piped())
        .stdout(Stdio::piped())
        .spawn()?;
    if let Some(mut input) = child.stdin.take() {
        // It need not read all of a file that is too long.
        match input.write_all(file) {
            Err(e) if e.kind() != ErrorKind::BrokenPipe => return Err(e),
            _ => (),
        }
    }
    Ok(child.wait_with_output()?.stdout)
}

const SEED: u64 = 11;

/// The most files of one first line, and how long most of them may be.
const EACH: usize = 24;
const LENGTH: usize = 2_048;

/// How many files may be longer, and how long.
const LONG: usize = 6;
const LONGEST: usize = 30_000;

const README: &str = "\
# Bend files with what bendsolve must print

NNN.bend is a bend file, whole or damaged, and NNN.txt what bendsolve prints
for it. 000 is document 01's example; 001 and 002 are the same with free bytes
before it, as long as a bend file may be and one byte longer. The answers are
those of the original Rust, printed as document 01 says; refusals are document
01's own. Made, the same each time, by

    cargo run --release --offline -- files DIR

A file can be refused with 1, 2, 3, 4 or 8. The other numbers are for lengths
that no bend file has; `src/lengths.rt` makes those calls.

";

/// Writes files and what must be printed for each into a folder.
pub fn write(folder: &Path) -> Result<(), String> {
    if !cfg!(original) {
        return Err(String::from(
            "the stored answers are the original's, and its files are not at hand",
        ));
    }
    fs::create_dir_all(folder).map_err(|e| format!("{}: {e}", folder.display()))?;
    let mut counts: BTreeMap<String, usize> = BTreeMap::new();
    let mut readme = String::from(README);
    let mut bytes = 0;
    for (number, (file, answer)) in chosen(&mut counts).iter().enumerate() {
        put(folder, &format!("{number:03}.bend"), file)?;
        put(folder, &format!("{number:03}.txt"), answer)?;
        bytes += file.len() + answer.len();
    }
    for (line, count) in &counts {
        readme.push_str(&format!("- {line}: {count}\n"));
    }
    put(folder, "README.md", readme.as_bytes())?;
    println!("{bytes} bytes\n{readme}");
    Ok(())
}

fn put(folder: &Path, name: &str, bytes: &[u8]) -> Result<(), String> {
    let path = folder.join(name);
    fs::write(&path, bytes).map_err(|e| format!("{}: {e}", path.display()))
}

/// Document 01's example, as it is and at the longest length and one past it;
/// then files of every family until each first line has its share.
fn chosen(counts: &mut BTreeMap<String, usize>) -> Vec<(Vec<u8>, Vec<u8>)> {
    let example = marked_problem(1);
    let bare = file(&example, &[]);
    let padded = |length: usize| file(&example, &vec![0; length - bare.len()]);
    let mut files = vec![bare.clone(), padded(65_536), padded(65_537)];
    let first_three = files.len();
    for index in 0..4_000 {
        let (family, make) = FAMILIES[index % FAMILIES.len()];
        files.push(make(&mut Rng::of_case(family, SEED, index as u64)));
    }
    let mut long = 0;
    let mut chosen = Vec::new();
    for (index, file) in files.into_iter().enumerate() {
        let answer = expected(&file);
        let first = String::from_utf8_lossy(&answer);
        let first = first.lines().next().unwrap_or_default().to_string();
        let count = counts.entry(first).or_default();
        if index >= first_three {
            let is_long = file.len() > LENGTH;
            if *count >= EACH || file.len() > LONGEST || (is_long && long >= LONG) {
                continue;
            }
            long += usize::from(is_long);
        }
        *count += 1;
        chosen.push((file, answer));
    }
    chosen
}
