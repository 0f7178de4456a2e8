//! Tables of both sides' times, in columns of a fixed width.

use crate::timing::Times;

/// What was timed: its name, how many bytes or children it has, and the times of both sides.
pub struct Row {
    name: String,
    units: usize,
    ours: Times,
    rust: Times,
}

impl Row {
    pub fn new(name: &str, units: usize, [ours, rust]: [Times; 2]) -> Self {
        Row {
            name: name.to_owned(),
            units,
            ours,
            rust,
        }
    }
}

/// What the last two columns of a table say: megabytes a second, nanoseconds for each child, or
/// nothing.
#[derive(Clone, Copy)]
pub enum Per {
    Byte,
    Child,
    Call,
}

impl Per {
    fn headings(self) -> [&'static str; 2] {
        match self {
            Per::Byte => ["MB/s", "Rust"],
            Per::Child => ["ns/child", "Rust"],
            Per::Call => ["", ""],
        }
    }

    fn rate(self, units: usize, nanoseconds: f64) -> String {
        match self {
            Per::Byte => format!("{:.1}", units as f64 * 1e3 / nanoseconds),
            Per::Child => format!("{:.1}", nanoseconds / units as f64),
            Per::Call => String::new(),
        }
    }
}

pub fn print_rows(title: &str, per: Per, rows: &[Row]) {
    println!();
    print_headings(title, per);
    for Row {
        name,
        units,
        ours,
        rust,
    } in rows
    {
        let cells = [
            nanoseconds(ours.median),
            nanoseconds(rust.median),
            ratio(ours.median, rust.median),
            nanoseconds(ours.least),
            nanoseconds(rust.least),
            ratio(ours.least, rust.least),
            per.rate(*units, ours.median),
            per.rate(*units, rust.median),
        ];
        print_line(name, &cells);
    }
}

fn print_headings(title: &str, per: Per) {
    let [rate, rust_rate] = per.headings();
    let headings = [
        "ours, ns",
        "Rust, ns",
        "ratio",
        "least ours",
        "least Rust",
        "ratio",
        rate,
        rust_rate,
    ];
    print_line(title, &headings.map(str::to_owned));
}

fn print_line(name: &str, cells: &[String; 8]) {
    const WIDTHS: [usize; 8] = [12, 12, 7, 12, 12, 7, 10, 8];
    let mut line = format!("{name:<25}");
    for (cell, width) in cells.iter().zip(WIDTHS) {
        line += &format!("{cell:>width$}");
    }
    println!("{}", line.trim_end());
}

fn ratio(a: f64, b: f64) -> String {
    format!("{:.2}", a / b)
}

/// A tenth where it says something.
pub fn nanoseconds(n: f64) -> String {
    if n < 1e3 {
        format!("{n:.1}")
    } else {
        format!("{n:.0}")
    }
}
