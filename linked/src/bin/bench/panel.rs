//! What a call on a panel costs: the time of a script of calls less that of one with half as many,
//! so that it includes taking the call out of the script.

use crate::inputs;
use crate::rust;
use crate::table::{nanoseconds, print_rows, Per, Row};
use crate::timing::{alternate, timer, Times};
use reference::panel::Call;
use std::hint::black_box;

/// The calls of the shorter script.
const CALLS: u64 = 1_000;

/// The clock of the look after a script, later than all of its own.
const CLOCK: u64 = 10_000;

/// The bytes of a panel, as the archive copies it.
const PANEL: usize = 2_064;

/// The kinds of these answers in `linked::Answered`.
const ACCEPTED: u64 = 0;
const GREEN: u64 = 3;
const REFUSED: u64 = 5;

/// A call for a tile at a clock.
type Make = fn(u64, u64) -> Call;

/// What is timed, each with the kind of its answer.
const TIMED: [(&str, u64, Make); 5] = [
    ("link up", ACCEPTED, |_, clock| inputs::link_up(clock)),
    ("message that counts", ACCEPTED, inputs::pose),
    ("message refused, clock", REFUSED, |tile, _| {
        inputs::pose(tile, 0)
    }),
    ("look", GREEN, |tile, clock| Call::Look { tile, clock }),
    ("add refused, there", REFUSED, |tile, _| inputs::add(tile)),
];

pub fn print_costs() {
    for tiles in [1, 16] {
        let rows = TIMED.map(|(name, answer, make)| cost(name, answer, tiles, make));
        print_rows(&format!("panel, tiles: {tiles}"), Per::Call, &rows);
    }
    print_parts();
}

/// The cost of a call for the last tile.
fn cost(name: &str, answer: u64, tiles: u64, make: Make) -> Row {
    let tile = tiles - 1;
    let script = |n| inputs::panel_script(tiles, n, |clock| make(tile, clock));
    let (short, long) = (script(CALLS), script(2 * CALLS));
    let last = linked::answer_at(&short, (tiles + 2 + CALLS - 1) as usize);
    assert_eq!(last.kind, answer, "{name}");
    let ours = |script: &[u8]| linked::look_after(black_box(script), tile as usize, CLOCK);
    let rust = |script: &[u8]| rust::look_after(black_box(script), tile as usize, CLOCK);
    assert_eq!(ours(&short), rust(&short), "{name}");
    assert_eq!(ours(&long), rust(&long), "{name}");
    let [ours_short, ours_long, rust_short, rust_long] = alternate([
        timer(|| ours(&short)),
        timer(|| ours(&long)),
        timer(|| rust(&short)),
        timer(|| rust(&long)),
    ]);
    let times = [more(ours_short, ours_long), more(rust_short, rust_long)];
    Row::new(name, 1, times)
}

/// What each call costs that the longer script has more.
fn more(short: Times, long: Times) -> Times {
    let calls = CALLS as f64;
    Times {
        median: (long.median - short.median) / calls,
        least: (long.least - short.least) / calls,
    }
}

/// What a message call does among other things, and the copy of a panel's bytes, for scale.
fn print_parts() {
    let Call::Message { bytes, .. } = inputs::pose(0, 0) else {
        unreachable!("a message");
    };
    let (from, mut to) = (inputs::bytes(PANEL), vec![0; PANEL]);
    let times = alternate([
        timer(|| linked::read(inputs::LAYOUT, black_box(&bytes))),
        timer(|| linked::crc64(black_box(&bytes[58..]))),
        timer(|| black_box(&mut to).copy_from_slice(black_box(&from))),
    ]);
    let [read, crc, copy] = times.map(|times| nanoseconds(times.median));
    println!();
    println!("of a message call: the reader {read} ns, in it the CRC of 48 bytes {crc} ns");
    println!("a copy of {PANEL} bytes, as many as a panel has: {copy} ns");
}
