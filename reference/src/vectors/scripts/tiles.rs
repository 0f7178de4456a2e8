//! Adding tiles: what is allowed, which are there already, how many there can be, and their
//! numbers.

use super::calls::{add, after_start, arm, down, look, message, needle, send, up};
use super::calls::{ARM, NEEDLE, POSITION, TRANSFORM};
use super::Script;
use crate::panel::Call;

/// A name as long as a device name can be, and one byte longer.
const LONGEST: &[u8] = b"A name of 20 bytes!!";
const TOO_LONG: &[u8] = b"A name of 20 bytes!!!";

pub fn scripts() -> Vec<Script> {
    vec![
        types(),
        names(),
        hold_times(),
        the_shortest_and_the_longest_name(),
        a_tile_that_is_there(),
        names_and_types_that_differ(),
        what_is_not_allowed_comes_before_what_is_there(),
        sixteen_tiles(),
        a_seventeenth_tile(),
        every_tile_of_a_full_panel(),
        a_link_call_on_a_full_panel(up(117)),
        a_link_call_on_a_full_panel(down(117)),
        tile_numbers(),
        an_add_takes_no_clock(),
    ]
}

/// 16 by the type alone.
fn types() -> Script {
    let types: [&[u8]; 16] = [
        TRANSFORM,
        POSITION,
        b"",
        b"TRANSFOR",
        b"TRANSFORMS",
        b"TRANSFORM\0",
        b"TRANSFORM\0\0\0",
        b"POSITION\0\0\0\0",
        b"\0TRANSFORM",
        b"transform",
        b"Position",
        b"GET_POSITION",
        b"GET_TRANSFORM",
        b"IMAGE",
        b"BIND",
        b"STATUS",
    ];
    Script::of(&types.map(|type_text| add(type_text, ARM, 500)), 0)
}

/// 16 by the name alone.
fn names() -> Script {
    let names: [&[u8]; 16] = [
        b"",
        b"A",
        b"\x01",
        b"\x7F",
        b"\0",
        b"\x80",
        b"\xFF",
        b"Arm\0",
        b"Ar\0m",
        b"\0Arm",
        b"Arm\x80",
        b"\xFFArm",
        LONGEST,
        TOO_LONG,
        b"A name of 20 bytes!\0",
        &[b'A'; 276],
    ];
    Script::of(&names.map(|name| add(POSITION, name, 500)), 0)
}

/// 16 by the hold time alone.
fn hold_times() -> Script {
    let hold_times = [
        0,
        1,
        60_000,
        60_001,
        65_536,
        65_537,
        1 << 32,
        (1 << 32) + 1,
        1 << 63,
        u64::MAX,
    ];
    let adds = (1..).zip(hold_times);
    let adds = adds.map(|(name, hold_time)| add(POSITION, &[name], hold_time));
    Script::of(&adds.collect::<Vec<_>>(), 0)
}

fn the_shortest_and_the_longest_name() -> Script {
    let value = |name: &[u8], value| message(POSITION, name, &[value; 12]).bytes();
    let calls = [
        add(POSITION, LONGEST, 500),
        add(POSITION, b"A", 500),
        add(POSITION, b"\x01\x7F", 500),
        up(5),
        send(5, &value(b"A", 1)),
        send(6, &value(LONGEST, 2)),
        send(7, &value(&LONGEST[..19], 3)),
        send(7, &value(b"\x01\x7F", 4)),
    ];
    Script::of(&calls, 7)
}

/// 17 whatever the hold time; the tile keeps its own, its number and its value.
fn a_tile_that_is_there() -> Script {
    let calls = [
        add(TRANSFORM, ARM, 500),
        add(TRANSFORM, ARM, 60_000),
        look(0, 1700),
        look(0, 1701),
        add(POSITION, ARM, 1),
        add(POSITION, ARM, 1),
        add(TRANSFORM, ARM, 1),
    ];
    after_start(&calls, 1701)
}

fn names_and_types_that_differ() -> Script {
    let names: [&[u8]; 6] = [b"Ar", b"Arm2", b"arm", b"Arm ", b"A", NEEDLE];
    let adds = names.map(|name| add(TRANSFORM, name, 500));
    let sent = [send(1300, &message(TRANSFORM, b"Arm2", &[8; 48]).bytes())];
    after_start(&[&adds[..], &sent].concat(), 1300)
}

/// 16 before 17.
fn what_is_not_allowed_comes_before_what_is_there() -> Script {
    let calls = [
        add(TRANSFORM, ARM, 0),
        add(TRANSFORM, ARM, 60_001),
        add(TRANSFORM, ARM, 1),
        add(b"TRANSFORM\0", ARM, 1),
        add(TRANSFORM, b"Arm\0", 1),
    ];
    after_start(&calls, 1200)
}

/// So many tiles of different names.
fn adds(count: u8) -> Vec<Call> {
    let names = (0..count).map(|place| [b'a' + place]);
    names.map(|name| add(POSITION, &name, 500)).collect()
}

fn sixteen_tiles() -> Script {
    Script::of(&adds(16), 0)
}

/// 18; on a full panel still 16 before 17 before 18.
fn a_seventeenth_tile() -> Script {
    let refused = [
        add(POSITION, b"p", 500),
        add(POSITION, b"p", 0),
        add(POSITION, b"a", 500),
        add(TRANSFORM, b"a", 500),
        add(TRANSFORM, b"a", 0),
        add(TRANSFORM, b"", 500),
        add(b"IMAGE", b"a", 500),
    ];
    Script::of(&[adds(17), refused.to_vec()].concat(), 0)
}

/// A message for each of the sixteen, from the last to the first, and one for the seventeenth.
fn sent_to_every_tile() -> Vec<Call> {
    let sent = (0..17).rev().map(|place: u8| {
        let content = [place + 1; 12];
        let bytes = message(POSITION, &[b'a' + place], &content).bytes();
        send(117 - u64::from(place), &bytes)
    });
    let calls = adds(17).into_iter().chain([up(100)]).chain(sent);
    calls.collect()
}

/// The last four are too old at the end.
fn every_tile_of_a_full_panel() -> Script {
    Script::of(&sent_to_every_tile(), 606)
}

/// Every tile is green before the link call, and grey after it.
fn a_link_call_on_a_full_panel(link: Call) -> Script {
    let looks: Vec<Call> = (0..16).map(|tile| look(tile, 117)).collect();
    let calls = [&sent_to_every_tile()[..], &looks, &[link]].concat();
    Script::of(&calls, 117)
}

/// Those of a full panel, and past it; in fewer bits some are a tile's.
fn tile_numbers() -> Script {
    let full = [&adds(15)[..], &[add(POSITION, NEEDLE, 500), up(5)]].concat();
    let value = [send(5, &needle(28, 7))];
    let numbers = [
        0,
        14,
        15,
        16,
        17,
        255,
        256,
        1 << 32,
        (1 << 32) + 15,
        1 << 63,
        (1 << 63) + 15,
        u64::MAX,
    ];
    let looks = numbers.map(|tile| look(tile, 5));
    Script::of(&[&full[..], &value, &looks].concat(), 5)
}

/// Late tiles are added as early ones are.
fn an_add_takes_no_clock() -> Script {
    let calls = [
        up(u64::MAX),
        add(TRANSFORM, ARM, 500),
        look(0, u64::MAX),
        send(u64::MAX, &arm(7)),
    ];
    Script::of(&calls, u64::MAX)
}

#[cfg(test)]
mod tests {
    use super::{
        a_link_call_on_a_full_panel, a_seventeenth_tile, a_tile_that_is_there,
        every_tile_of_a_full_panel, hold_times, names, sixteen_tiles, tile_numbers, types,
        what_is_not_allowed_comes_before_what_is_there, Script,
    };
    use crate::fault::Fault;
    use crate::panel::Answer;
    use crate::vectors::scripts::calls::{down, up};

    fn added(script: &Script) -> Vec<usize> {
        let [answers, _] = script.answers();
        let answers = answers.iter().enumerate();
        let added = answers.filter_map(|(place, answer)| match answer {
            Answer::Added(_) => Some(place),
            Answer::Refused(Fault::Tile) => None,
            other => panic!("{other:?}"),
        });
        added.collect()
    }

    #[test]
    fn what_a_tile_may_be() {
        assert_eq!(added(&types()), [0, 1]);
        assert_eq!(added(&names()), [1, 2, 3, 12]);
        assert_eq!(added(&hold_times()), [1, 2]);
    }

    #[test]
    fn a_tile_is_there_once() {
        let line = "added 0, accepted, accepted, refused 17, refused 17, green 500 7, grey 501 7, \
                    added 1, refused 17, refused 17 | grey 501 7, empty";
        assert_eq!(a_tile_that_is_there().brief(), line);
        let line = "added 0, accepted, accepted, refused 16, refused 16, refused 17, refused 16, \
                    refused 16 | green 0 7";
        let script = what_is_not_allowed_comes_before_what_is_there();
        assert_eq!(script.brief(), line);
    }

    #[test]
    fn no_seventeenth_tile() {
        let [answers, looks] = sixteen_tiles().answers();
        assert!(answers.into_iter().eq((0..16).map(Answer::Added)));
        assert_eq!(looks, [const { Answer::Empty }; 16]);
        let [answers, _] = a_seventeenth_tile().answers();
        let numbers = [18, 17, 16, 17, 18, 16, 16, 16];
        let refused = answers[16..].iter().map(|answer| match answer {
            Answer::Refused(fault) => *fault as u8,
            _ => 0,
        });
        assert!(refused.eq(numbers));
    }

    #[test]
    fn a_full_panel_shows_every_value() {
        let brief = every_tile_of_a_full_panel().brief();
        assert!(brief.contains("refused 18, accepted, refused 13, accepted"));
        assert!(brief.contains("| green 489 1, green 490 2, "));
        assert!(brief.contains("green 499 11, green 500 12, grey 501 13, grey 502 14"));
    }

    #[test]
    fn a_link_call_ends_green_of_all_sixteen() {
        for link in [up(117), down(117)] {
            let [answers, looks] = a_link_call_on_a_full_panel(link).answers();
            let [mut before, mut after] = [answers[35..51].iter(), looks.iter()];
            assert!(before.all(|answer| matches!(answer, Answer::Green { .. })));
            assert!(after.all(|answer| matches!(answer, Answer::Grey { .. })));
        }
    }

    #[test]
    fn numbers_of_tiles() {
        let brief = tile_numbers().brief();
        let looks = "empty, empty, green 0 7, refused 19";
        let past = ["refused 19"; 8].join(", ");
        assert!(brief.contains(&format!("accepted, accepted, {looks}, {past} | empty")));
    }
}
