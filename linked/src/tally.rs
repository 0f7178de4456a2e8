//! How many inputs of each kind were compared, and what they were answered.

#![forbid(unsafe_code)]

use crate::compare::Label;
use std::collections::BTreeMap;

/// How many inputs were compared, and how often each answer was given.
#[derive(Default)]
struct Tally {
    inputs: u64,
    answers: BTreeMap<Label, u64>,
}

impl Tally {
    fn add(&mut self, other: &Tally) {
        self.inputs += other.inputs;
        for (label, count) in &other.answers {
            *self.answers.entry(*label).or_default() += count;
        }
    }

    fn line(&self, name: &str) -> String {
        let answers: Vec<_> = self.answers.iter().collect();
        let answers = words(&answers, |(label, count)| format!("{label}: {count}"));
        format!("{name:<33} {:>8}  {answers}", self.inputs)
    }
}

/// The tallies by kind.
#[derive(Default)]
pub struct Tallies {
    kinds: BTreeMap<&'static str, Tally>,
}

impl Tallies {
    /// One more input of a kind, and its answers.
    pub fn count(&mut self, kind: &'static str, labels: &[Label]) {
        let tally = self.kinds.entry(kind).or_default();
        tally.inputs += 1;
        for label in labels {
            *tally.answers.entry(*label).or_default() += 1;
        }
    }

    pub fn add(&mut self, other: Tallies) {
        for (kind, tally) in other.kinds {
            self.kinds.entry(kind).or_default().add(&tally);
        }
    }

    /// A line for each kind, and one for all kinds of each part of the library.
    pub fn print(&self) {
        println!("{:<33} {:>8}  answers", "kind", "inputs");
        let mut parts: BTreeMap<&str, Tally> = BTreeMap::new();
        for (kind, tally) in &self.kinds {
            println!("{}", tally.line(kind));
            let part = kind.split(':').next().expect("a first part");
            parts.entry(part).or_default().add(tally);
        }
        println!("in all");
        for (part, tally) in parts {
            println!("{}", tally.line(part));
        }
    }

    pub fn answers(&self) -> u64 {
        let tallies = self.kinds.values();
        tallies.flat_map(|tally| tally.answers.values()).sum()
    }
}

/// The words of some items in a row.
pub fn words<T>(items: &[T], word: impl Fn(&T) -> String) -> String {
    let words: Vec<String> = items.iter().map(word).collect();
    words.join(", ")
}
