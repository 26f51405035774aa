//! Which classes of cases a run reached, and how often.

use std::collections::BTreeMap;

/// A group of classes, all of which a run must reach.
pub struct Class {
    pub group: &'static str,
    pub names: &'static [&'static str],
}

/// The counts of a run.
#[derive(Default)]
pub struct Coverage {
    counts: BTreeMap<(&'static str, &'static str), u64>,
}

/// The numbers from 0 to 33 as names; the last stands for all above 32.
pub const NUMBERS: [&str; 34] = [
    "0", "1", "2", "3", "4", "5", "6", "7", "8", "9", "10", "11", "12", "13", "14", "15", "16",
    "17", "18", "19", "20", "21", "22", "23", "24", "25", "26", "27", "28", "29", "30", "31", "32",
    "above",
];

/// The numbers of worked examples, from 1.
pub const EXAMPLES: [&str; 70] = [
    "1", "2", "3", "4", "5", "6", "7", "8", "9", "10", "11", "12", "13", "14", "15", "16", "17",
    "18", "19", "20", "21", "22", "23", "24", "25", "26", "27", "28", "29", "30", "31", "32", "33",
    "34", "35", "36", "37", "38", "39", "40", "41", "42", "43", "44", "45", "46", "47", "48", "49",
    "50", "51", "52", "53", "54", "55", "56", "57", "58", "59", "60", "61", "62", "63", "64", "65",
    "66", "67", "68", "69", "70",
];

/// The numbers of steps that a chained bend file may have.
pub const STEPS: &[&str] = EXAMPLES.split_at(40).0;

/// The numbers of rows that a problem may have.
pub const ROWS: &[&str] = NUMBERS.split_at(33).0;

impl Coverage {
    pub fn count(&mut self, group: &'static str, name: &'static str) {
        *self.counts.entry((group, name)).or_insert(0) += 1;
    }

    pub fn number(&mut self, group: &'static str, number: usize) {
        self.count(group, NUMBERS[number.min(33)]);
    }

    /// Counts the class of that name, if the group has one.
    pub fn named(&mut self, classes: &[Class], group: &'static str, name: &str) {
        let of_group = classes.iter().filter(|class| class.group == group);
        for &known in of_group.flat_map(|class| class.names) {
            if known == name {
                self.count(group, known);
            }
        }
    }

    pub fn add(&mut self, other: &Coverage) {
        for (&key, &count) in &other.counts {
            *self.counts.entry(key).or_insert(0) += count;
        }
    }

    fn get(&self, group: &'static str, name: &'static str) -> u64 {
        self.counts.get(&(group, name)).copied().unwrap_or(0)
    }

    /// How many classes there are, and those that were not reached.
    pub fn missing(&self, classes: &[Class]) -> (usize, Vec<String>) {
        let mut missing = Vec::new();
        let mut total = 0;
        for class in classes {
            for &name in class.names {
                total += 1;
                if self.get(class.group, name) == 0 {
                    missing.push(format!("{} {name}", class.group));
                }
            }
        }
        (total, missing)
    }

    /// One line for each group.
    pub fn lines(&self, classes: &[Class]) -> String {
        let mut text = String::new();
        for class in classes {
            text.push_str(&format!("  {}:", class.group));
            for &name in class.names {
                text.push_str(&format!(" {name} {};", self.get(class.group, name)));
            }
            text.push('\n');
        }
        text
    }
}
