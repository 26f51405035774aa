//! The worked examples of chained bend files held against the reference, the
//! mistakes that each of them shows, and the round trip.

use crate::calls::chain_writer::ChainWriter;
use crate::calls::Call;
use crate::cases::chain_examples::{examples, Read, Step, Write};
use crate::cases::random::Rng;
use crate::reference::bend::{self, Bend};
use crate::reference::chain::{read_step, walk};
use crate::reference::chain_writer::{write, Pull};
use crate::reference::rule::{Rule, RULES};

/// The bits of a step's values in the file's order, any NaN as one.
fn bits(bend: &Bend) -> Vec<u64> {
    let tolerance = [bend.tolerance];
    let parts: [&[f64]; 8] = [
        &bend.w,
        &bend.u_free,
        &bend.lo,
        &bend.hi,
        &bend.scale,
        &bend.nu,
        &bend.motion,
        &tolerance,
    ];
    let all = parts.iter().flat_map(|part| part.iter());
    all.map(|v| if v.is_nan() { f64::NAN } else { *v }.to_bits())
        .collect()
}

/// All steps of a file, newest first.
fn steps(file: &[u8], rule: Rule) -> Result<Vec<Step>, u32> {
    let found = walk(file, rule);
    if found.number != 0 {
        return Err(found.number);
    }
    (0..found.steps.len())
        .map(|number| {
            let (step, bend) = read_step(file, number, rule)?.expect("a step of the file");
            let values = bits(&bend);
            Ok(Step {
                rows: step.rows,
                coords: step.coords,
                count: values.len(),
                values,
            })
        })
        .collect()
}

/// The file that is written for steps given oldest first.
fn file(steps: &[Step], room: usize, rule: Rule) -> Result<Vec<u8>, u32> {
    let of = |field: fn(&Step) -> usize| -> Vec<usize> { steps.iter().map(field).collect() };
    let values = steps.iter().flat_map(|step| &step.values);
    let values: Vec<f64> = values.map(|&bits| f64::from_bits(bits)).collect();
    let (rows, coords, counts) = (of(|s| s.rows), of(|s| s.coords), of(|s| s.count));
    let pull = Pull {
        rows: &rows,
        coords: &coords,
        counts: &counts,
        values: &values,
    };
    let mut out = vec![0x6E; room];
    let length = write(&pull, &mut out, rule)?;
    assert!(out[length..].iter().all(|&byte| byte == 0x6E));
    out.truncate(length);
    Ok(out)
}

fn shows_read(read: &Read, rule: Rule) -> bool {
    steps(&read.file, rule) != read.answer
}

fn shows_write(example: &Write, rule: Rule) -> bool {
    file(&example.steps, example.room, rule) != example.answer
}

#[test]
fn seventy_worked_examples() {
    let examples = examples();
    assert_eq!((examples.reads.len(), examples.writes.len()), (43, 27));
    for read in &examples.reads {
        assert!(!shows_read(read, Rule::None), "example {}", read.number);
    }
    for example in &examples.writes {
        assert!(
            !shows_write(example, Rule::None),
            "example {}",
            example.number
        );
    }
}

/// A single bend file read the old way keeps document 01's rules.
#[test]
fn the_old_reader_on_the_same_bytes() {
    for read in &examples().reads {
        let old = bend::read(&read.file, Rule::None).map(|bend| {
            let (rows, count) = (bend.u_free.len(), bits(&bend).len());
            (read.file.len() - 16 - 8 * count, rows, count)
        });
        let expected = read.old.map(|[start, rows, _, count]| (start, rows, count));
        assert_eq!(old, expected, "example {}", read.number);
    }
}

/// Each likely mistake shows in the examples that are said to show it, and in
/// no others.
#[test]
fn mistakes_show_where_they_are_said_to() {
    let examples = examples();
    for mistake in &examples.mistakes {
        let rule = RULES
            .iter()
            .find(|rule| format!("{rule:?}") == mistake.rule);
        let &rule = rule.unwrap_or_else(|| panic!("no error {}", mistake.rule));
        let reads = examples.reads.iter().filter(|read| shows_read(read, rule));
        let writes = examples.writes.iter().filter(|w| shows_write(w, rule));
        let shown: Vec<usize> = reads
            .map(|read| read.number)
            .chain(writes.map(|w| w.number))
            .collect();
        assert_eq!(shown, mistake.shown_by, "{rule:?}");
    }
    assert_eq!(examples.mistakes.len(), 37);
}

/// What is written reads back as the same steps, newest first.
#[test]
fn round_trip() {
    let mut accepted = 0;
    for family in ChainWriter::families() {
        for index in 0..200 {
            let case = ChainWriter::case(family, &mut Rng::of_case(family, 5, index));
            let case = case.expect("a family of its own");
            let Some(pull) = case.pull() else { continue };
            let mut out = vec![0; case.out_len];
            let Ok(length) = write(&pull, &mut out, Rule::None) else {
                continue;
            };
            accepted += 1;
            let mut back = steps(&out[..length], Rule::None).expect("a written file is read");
            back.reverse();
            let shapes: Vec<_> = back.iter().map(|s| (s.rows, s.coords)).collect();
            let lent: Vec<_> = case.rows.iter().copied().zip(case.coords).collect();
            assert_eq!(shapes, lent[..case.rows.len()], "{family} 5 {index}");
            let values: Vec<u64> = back.into_iter().flat_map(|s| s.values).collect();
            let given = case.values[..values.len()].iter();
            let given: Vec<u64> = given
                .map(|v| if v.is_nan() { f64::NAN } else { *v }.to_bits())
                .collect();
            assert!(values == given, "{family} 5 {index}");
        }
    }
    assert!(accepted > 400);
}
