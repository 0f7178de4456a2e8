//! Scripts that are no list of whole calls, and calls whose ignored fields hold something.

use super::calls::{add, down, look, needle, send, up, ARM, NEEDLE, POSITION};
use super::Script;
use crate::panel::Call;
use crate::random::Random;
use crate::script::{encode, Fields};
use crate::vectors::samples::set;

const SEED: u64 = 12;

/// The clock of the looks after the scripts made of `whole`.
const CLOCK: u64 = 7;

pub fn scripts() -> Vec<Script> {
    let bytes = [
        vec![vec![]],
        cut_off(),
        same_bytes(),
        any_bytes(),
        kinds(),
        long_parts(),
        vec![ignored_fields(), a_part_that_is_no_call()],
    ];
    let scripts = bytes.concat().into_iter().map(with_clock);
    scripts.chain(cut_clocks()).chain(cut_tiles()).collect()
}

fn with_clock(bytes: Vec<u8>) -> Script {
    let clock = CLOCK;
    Script { bytes, clock }
}

/// An add, a link up, a message and a look, of which the tile is green.
fn whole() -> [Call; 4] {
    [
        add(POSITION, NEEDLE, 2),
        up(4),
        send(5, &needle(12, 7)),
        look(0, 7),
    ]
}

/// Without the bytes from each place on.
fn cut_off() -> Vec<Vec<u8>> {
    let whole = encode(&whole());
    let cuts = 1..=whole.len();
    cuts.map(|length| whole[..length].to_vec()).collect()
}

/// A link up without the bytes from each place of its clock on, and looks at the clock that is left
/// and one before it.
fn cut_clocks() -> Vec<Script> {
    let clock: u64 = 0x0102_0304_0506_0708;
    let tile = add(POSITION, NEEDLE, 2);
    let script = encode(&[tile, up(clock)]);
    let scripts = (0..8).flat_map(|missing| {
        let bytes = &script[..script.len() - 16 - missing];
        let left = clock >> (8 * missing);
        [left, left - 1].map(|clock| Script {
            bytes: bytes.to_vec(),
            clock,
        })
    });
    scripts.collect()
}

/// A look at tile 2^56 without the bytes from each place of that number on: of one byte it is 1,
/// of more no tile's.
fn cut_tiles() -> Vec<Script> {
    let tiles = [add(POSITION, ARM, 2), add(POSITION, NEEDLE, 2)];
    let calls = [up(4), send(5, &needle(12, 7)), look(1 << 56, 7)];
    let script = encode(&[&tiles[..], &calls].concat());
    let lengths = script.len() - 16..=script.len() - 8;
    let scripts = lengths.map(|length| with_clock(script[..length].to_vec()));
    scripts.collect()
}

fn same_bytes() -> Vec<Vec<u8>> {
    let lengths = [1, 2, 9, 17, 21, 24, 25, 26, 50, 51, 200];
    let of_value = |value: u8| lengths.map(|length| vec![value; length]);
    [0, 1, 2, 3, 4, 255]
        .into_iter()
        .flat_map(of_value)
        .collect()
}

/// By chance: all bytes; those after a whole script; calls of a few bytes.
fn any_bytes() -> Vec<Vec<u8>> {
    let mut random = Random::new(SEED);
    let lengths = [1, 7, 20, 25, 30, 60, 125, 300];
    let of_length = |length: usize| {
        let any = random.bytes(length);
        let after = [encode(&whole()), random.bytes(length)].concat();
        let short = (0..length / 5).map(|_| short_call(&mut random).encode());
        let short = short.collect::<Vec<_>>().concat();
        [any, after, short]
    };
    lengths.into_iter().flat_map(of_length).collect()
}

/// A call of a few bytes, often one that is refused.
pub fn short_call(random: &mut Random) -> Fields {
    let [kind, first, second] = [6, 4, 4].map(|bound| random.below(bound));
    let [clock, number] = [3, 2].map(|bound| random.below(bound) as u64);
    let texts = [POSITION, b"A", b"", NEEDLE];
    Fields {
        kind: u8::try_from(kind).expect("a kind fits a byte"),
        clock,
        number,
        first: texts[first].to_vec(),
        second: texts[second].to_vec(),
    }
}

/// Each kind of call, and others, which are looks.
fn kinds() -> Vec<Vec<u8>> {
    let kinds = [0, 1, 2, 3, 4, 5, 6, 16, 64, 127, 128, 254, 255];
    let of_kind = |kind| {
        let fields = Fields {
            kind,
            ..Fields::of(&look(0, 6))
        };
        [encode(&whole()), fields.encode(), encode(&[look(0, 7)])].concat()
    };
    kinds.map(of_kind).to_vec()
}

/// Whole calls of which the lengths of the parts say more than is there, or less.
fn long_parts() -> Vec<Vec<u8>> {
    let [tile, link, message, _] = whole();
    let before = encode(&[tile.clone(), link]);
    let message = encode(&[message]);
    let tile = encode(&[tile]);
    // The last byte of a length, or the first.
    let places = [
        (20, 1),
        (20, 255),
        (17, 1),
        (17, 255),
        (24, 1),
        (24, 255),
        (21, 128),
    ];
    let of_place = |(place, value)| {
        let first = set(&tile, place, value);
        let followed = [&first[..], &message].concat();
        let last = [&before[..], &set(&message, place, value)].concat();
        let between = [&last[..], &encode(&[look(0, 7)])].concat();
        [first, followed, last, between]
    };
    let both = [&tile[..17], &[255; 8], &tile[25..]].concat();
    let scripts = places.into_iter().flat_map(of_place);
    scripts.chain([both]).collect()
}

/// Every field that a call ignores holds something, the parts too. The link up's number is none of
/// those; it names the new layout.
fn ignored_fields() -> Vec<u8> {
    let filled = whole().map(|call| {
        let fields = Fields::of(&call);
        let filled = match call {
            Call::Add { .. } => Fields { clock: 9, ..fields },
            Call::Message { .. } => Fields {
                number: 9,
                second: vec![4; 40],
                ..fields
            },
            Call::Look { .. } => Fields {
                first: vec![1; 30],
                second: vec![2],
                ..fields
            },
            _ => Fields {
                number: 9,
                first: vec![0; 30],
                second: vec![2; 3],
                ..fields
            },
        };
        filled.encode()
    });
    filled.concat()
}

/// A part that holds the bytes of a call is a part all the same.
fn a_part_that_is_no_call() -> Vec<u8> {
    let hidden = Fields {
        first: encode(&[down(6)]),
        second: encode(&[up(6)]),
        ..Fields::of(&look(0, 6))
    };
    let last = encode(&[look(0, 6)]);
    [encode(&whole()), hidden.encode(), last].concat()
}

#[cfg(test)]
mod tests {
    use super::{a_part_that_is_no_call, cut_clocks, cut_off, cut_tiles};
    use super::{ignored_fields, kinds, long_parts, with_clock};

    fn brief(bytes: &[u8]) -> String {
        with_clock(bytes.to_vec()).brief()
    }

    const WHOLE: &str = "added 0, accepted, accepted, green 2 7";

    #[test]
    fn what_is_left_of_a_script_that_is_cut_off() {
        let briefs: Vec<_> = cut_off().iter().map(|bytes| brief(bytes)).collect();
        assert_eq!(briefs.last().unwrap(), &format!("{WHOLE} | green 2 7"));
        assert_eq!(briefs[0], "refused 16 | ");
        // The name has lost its last byte.
        let add_length = 25 + 8 + 6;
        assert_eq!(briefs[add_length - 2], "added 0 | empty");
        assert_eq!(briefs[add_length - 1], "added 0 | empty");
        // A clock of no bytes is 0.
        assert_eq!(briefs[add_length], "added 0, accepted | empty");
        // The message has lost its last byte.
        let sent = add_length + 25 + 25 + 70;
        assert_eq!(briefs[sent - 2], "added 0, accepted, refused 1 | empty");
        assert_eq!(
            briefs[sent],
            "added 0, accepted, accepted, refused 15 | green 2 7"
        );
    }

    #[test]
    fn ignored_fields_are_any() {
        assert_eq!(brief(&ignored_fields()), format!("{WHOLE} | green 2 7"));
        let line = format!("{WHOLE}, green 1 7, green 1 7 | green 2 7");
        assert_eq!(brief(&a_part_that_is_no_call()), line);
    }

    /// The message's bytes that are there are a whole one.
    #[test]
    fn a_length_past_the_end() {
        let scripts = long_parts();
        let long_last = &scripts[2 + 4];
        assert_eq!(brief(long_last), "added 0, accepted, accepted | green 2 7");
        assert_eq!(brief(scripts.last().unwrap()), "refused 16 | ");
    }

    #[test]
    fn numbers_that_are_cut_off() {
        let clocks = cut_clocks();
        assert_eq!(clocks.len(), 16);
        for pair in clocks.chunks(2) {
            assert_eq!(pair[0].brief(), "added 0, accepted | empty");
            assert_eq!(pair[1].brief(), "added 0, accepted | refused 15");
        }
        let looks = ["empty", "green 2 7"];
        let looks = looks.into_iter().chain(["refused 19"; 7]);
        for (script, look) in cut_tiles().iter().zip(looks) {
            let calls = format!("added 0, added 1, accepted, accepted, {look}");
            assert_eq!(script.brief(), format!("{calls} | empty, green 2 7"));
        }
    }

    #[test]
    fn other_kinds_are_looks() {
        let briefs: Vec<_> = kinds().iter().map(|bytes| brief(bytes)).collect();
        let look = format!("{WHOLE}, green 1 7, green 2 7 | green 2 7");
        assert!(briefs[4..].iter().all(|brief| *brief == look));
        let line = |answer: &str, colour: &str| {
            let look = format!("{colour} 2 7");
            format!("{WHOLE}, {answer}, {look} | {look}")
        };
        assert_eq!(briefs[0], line("refused 16", "green"));
        assert_eq!(briefs[1], line("accepted", "grey"));
        assert_eq!(briefs[2], line("accepted", "grey"));
        assert_eq!(briefs[3], line("refused 1", "green"));
    }
}
