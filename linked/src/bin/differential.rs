//! differential [--no-long] COUNT SEED: gives COUNT inputs, and the long ones, to the proved
//! library and to the reference implementation, and compares the answers. It prints how many of
//! each kind were compared and what they were answered, or the first difference. Where a side
//! panics, it says at which input.
//!
//! differential --only NUMBER SEED: the input of this number alone, shown whole.

#![forbid(unsafe_code)]

use linked::compare::{compare, Difference, Label};
use linked::inputs::long::{self, Long};
use linked::inputs::{Input, Inputs};
use linked::tally::{words, Tallies};
use std::process::ExitCode;
use std::sync::atomic::{AtomicU64, Ordering};
use std::{env, thread};

/// How many inputs a thread takes at a time.
const BATCH: u64 = 64;

/// Of each part of an input, as many bytes are shown at a difference.
const SHOWN: usize = 1000;

fn main() -> ExitCode {
    let words: Vec<String> = env::args().skip(1).collect();
    let words: Vec<&str> = words.iter().map(String::as_str).collect();
    let numbers = |words: &[&str]| {
        let numbers = words.iter().map(|word| word.parse().ok());
        numbers.collect::<Option<Vec<u64>>>()
    };
    let (long, rest) = match words[..] {
        ["--only", ref rest @ ..] => return only(numbers(rest)),
        ["--no-long", ref rest @ ..] => (Vec::new(), rest),
        ref rest => (long::inputs(), rest),
    };
    match numbers(rest).as_deref() {
        Some([count, seed]) => run(long, *count, *seed),
        _ => usage(),
    }
}

fn usage() -> ExitCode {
    eprintln!("usage: differential [--no-long] COUNT SEED | differential --only NUMBER SEED");
    ExitCode::from(2)
}

/// One input whole, with both answers where they differ.
fn only(numbers: Option<Vec<u64>>) -> ExitCode {
    let Some([number, seed]) = numbers.as_deref() else {
        return usage();
    };
    let (kind, input) = Inputs::new(*seed).input(*number);
    println!("{kind}, input {number} of seed {seed}");
    for line in input.shown(usize::MAX) {
        println!("{line}");
    }
    match compare(&input) {
        Ok(labels) => {
            println!("no difference: {}", words(&labels, Label::to_string));
            ExitCode::SUCCESS
        }
        Err(difference) => {
            print_answers(&difference);
            ExitCode::FAILURE
        }
    }
}

fn run(long: Vec<Long>, count: u64, seed: u64) -> ExitCode {
    let run = Run {
        items: long.len() as u64 + count,
        long,
        seed,
        inputs: Inputs::new(seed),
        next: AtomicU64::new(0),
        first: AtomicU64::new(u64::MAX),
    };
    let Some(results) = run.on_threads() else {
        return ExitCode::FAILURE;
    };
    let mut tallies = Tallies::default();
    let mut found = Vec::new();
    for (part, difference) in results {
        tallies.add(part);
        found.extend(difference);
    }
    match found.into_iter().min_by_key(|found| found.item) {
        Some(found) => {
            println!("difference at {}, seed {seed}", found.title);
            found.shown.iter().for_each(|line| println!("{line}"));
            print_answers(&found.difference);
            ExitCode::FAILURE
        }
        None => {
            tallies.print();
            let (long, answers) = (run.long.len(), tallies.answers());
            let total = format!("{count} inputs and {long} long ones, {answers} answers");
            println!("{total}, seed {seed}: no difference");
            ExitCode::SUCCESS
        }
    }
}

fn print_answers(difference: &Difference) {
    println!("differs: {}", difference.what);
    println!("proved:    {}", difference.proved);
    println!("reference: {}", difference.reference);
}

/// The inputs of one run, taken by several threads: the long ones first.
struct Run {
    long: Vec<Long>,
    seed: u64,
    inputs: Inputs,
    items: u64,
    next: AtomicU64,
    /// The first item known to be answered differently, or with a panic.
    first: AtomicU64,
}

/// An input that was answered differently.
struct Found {
    item: u64,
    title: String,
    shown: Vec<String>,
    difference: Difference,
}

/// An item that is being compared. Where a panic ends that, it says which one it was, and the other
/// threads take no more.
struct Current<'a> {
    run: &'a Run,
    item: u64,
}

impl Drop for Current<'_> {
    fn drop(&mut self) {
        if thread::panicking() {
            let Current { run, item } = *self;
            eprintln!("panic at {}, seed {}", run.title(item), run.seed);
            run.first.fetch_min(item, Ordering::Relaxed);
        }
    }
}

impl Run {
    /// What each thread found, or nothing where one panicked.
    fn on_threads(&self) -> Option<Vec<(Tallies, Option<Found>)>> {
        let count = thread::available_parallelism().map_or(1, usize::from);
        thread::scope(|scope| {
            let threads: Vec<_> = (0..count).map(|_| scope.spawn(|| self.work())).collect();
            let results: Vec<_> = threads.into_iter().map(|thread| thread.join()).collect();
            results.into_iter().map(Result::ok).collect()
        })
    }

    /// Takes items until none is left, or until one before it was found to differ, so that the same
    /// one is reported whichever thread was faster.
    fn work(&self) -> (Tallies, Option<Found>) {
        let mut tallies = Tallies::default();
        loop {
            let batch = self.batch();
            if batch.is_empty() {
                return (tallies, None);
            }
            for item in batch {
                let found = self.difference(item, &mut tallies);
                if found.is_some() {
                    self.first.fetch_min(item, Ordering::Relaxed);
                    return (tallies, found);
                }
            }
        }
    }

    /// The next items, long ones one by one.
    fn batch(&self) -> std::ops::Range<u64> {
        let long = self.long.len() as u64;
        let end = |start: u64| start + if start < long { 1 } else { BATCH };
        let limit = self.items.min(self.first.load(Ordering::Relaxed));
        let take = |start| (start < limit).then(|| end(start));
        let taken = self
            .next
            .fetch_update(Ordering::Relaxed, Ordering::Relaxed, take);
        match taken {
            Ok(start) => start..end(start).min(self.items),
            Err(_) => 0..0,
        }
    }

    fn difference(&self, item: u64, tallies: &mut Tallies) -> Option<Found> {
        let _current = Current { run: self, item };
        let (kind, input) = self.input(item);
        match compare(&input) {
            Ok(labels) => {
                tallies.count(kind, &labels);
                None
            }
            Err(difference) => Some(Found {
                item,
                title: format!("{kind}, {}", self.title(item)),
                shown: input.shown(SHOWN),
                difference,
            }),
        }
    }

    /// The number of an input that is none of the long ones.
    fn number(&self, item: u64) -> Option<u64> {
        item.checked_sub(self.long.len() as u64)
    }

    fn title(&self, item: u64) -> String {
        match self.number(item) {
            Some(number) => format!("input {number}"),
            None => self.long[item as usize].name.to_string(),
        }
    }

    /// The name of the input's kind, and the input.
    fn input(&self, item: u64) -> (&'static str, Input) {
        match self.number(item) {
            Some(number) => self.inputs.input(number),
            None => {
                let Long { kind, make, .. } = &self.long[item as usize];
                (kind, make())
            }
        }
    }
}
