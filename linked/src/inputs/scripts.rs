//! Scripts of calls on the panel.

use super::damage::{change, edge};
use super::messages::with_rests;
use super::stock::Stock;
use super::{any_or_few, Input};
use reference::panel::Call;
use reference::random::Random;
use reference::script::{decode, encode};
use reference::vectors::scripts::chances::by_chance;
use reference::vectors::scripts::encodings::short_call;
use reference::vectors::scripts::Script;

/// Up to so many calls a script is asked at every place.
const SHORT: usize = 24;

/// Half of the time with something after the texts in the messages.
pub fn calls(random: &mut Random, stock: &Stock) -> Input {
    let mut script = by_chance(random, &stock.others);
    if random.below(2) == 0 {
        let calls = decode(&script.bytes).into_iter();
        let calls = calls.map(|call| call_with_rests(random, call));
        script.bytes = encode(&calls.collect::<Vec<_>>());
    }
    asked(random, script)
}

fn call_with_rests(random: &mut Random, call: Call) -> Call {
    match call {
        Call::Message { clock, bytes } => Call::Message {
            clock,
            bytes: with_rests(random, bytes),
        },
        other => other,
    }
}

pub fn damaged(random: &mut Random, stock: &Stock) -> Input {
    let mut script = by_chance(random, &stock.others);
    for _ in 0..random.pick(&[1, 1, 2, 5]) {
        change(random, &mut script.bytes);
    }
    asked(random, script)
}

/// Several scripts one after the other; the first of them moves the clock the least.
pub fn many_calls(random: &mut Random, stock: &Stock) -> Input {
    let mut scripts = [(); 4].map(|()| by_chance(random, &stock.others));
    scripts.sort_by_key(|script| script.clock);
    let clock = scripts[3].clock;
    let bytes = scripts.map(|script| script.bytes).concat();
    asked(random, Script { bytes, clock })
}

/// Any bytes, alone or after calls of a few bytes.
pub fn any_bytes(random: &mut Random, _: &Stock) -> Input {
    let count = random.pick(&[0, 0, 3, 12]);
    let calls = (0..count).map(|_| short_call(random).encode());
    let mut bytes = calls.collect::<Vec<_>>().concat();
    let length = random.below(120);
    bytes.extend(any_or_few(random, length));
    let any = random.word();
    let clock = random.pick(&[0, 1, 2, any, u64::MAX]);
    asked(random, Script { bytes, clock })
}

/// Asked at every place and some after the last, a long script at some of its places; then looked
/// at each tile, the next one and one far off.
fn asked(random: &mut Random, script: Script) -> Input {
    let calls = decode(&script.bytes);
    let count = calls.len();
    let mut places: Vec<usize> = if count <= SHORT {
        (0..count).collect()
    } else {
        (0..SHORT / 2).map(|_| random.below(count)).collect()
    };
    let far = usize::from(edge(random));
    places.extend([count, random.pick(&[count + 1, count + far, usize::MAX])]);
    let adds = calls.iter().filter(|call| matches!(call, Call::Add { .. }));
    let mut tiles: Vec<usize> = (0..=adds.count().min(16)).collect();
    tiles.push(random.pick(&[15, 16, 17, 1 << 32, 1 << 63, usize::MAX]));
    Input::Script {
        script,
        places,
        tiles,
    }
}
