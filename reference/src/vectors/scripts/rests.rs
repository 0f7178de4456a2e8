//! Messages whose texts are not followed by zeros alone: tiles go by the texts.

use super::calls::{add, after_start, arm, down, look, message, send, up_in};
use super::calls::{ARM, NEEDLE, POSITION, TRANSFORM};
use super::Script;
use crate::message::body::Layout;
use crate::panel::Call;
use crate::random::Random;
use crate::vectors::rests::{by_chance, changed, examples, DEVICE_NAME, FILLED, KINDS, TYPE};
use crate::vectors::samples::{mended, set, Sample};
use crate::vectors::streams::without_text;

const SEED: u64 = 31;

pub fn scripts() -> Vec<Script> {
    let single = [the_example(), kinds(), texts(), refused(), two_names()];
    let of_layouts = Layout::BOTH.map(all_sections);
    single.into_iter().chain(of_layouts).collect()
}

/// The last of ten examples: P10 with a message that is not clean.
fn the_example() -> Script {
    let calls = [
        add(TRANSFORM, ARM, 500),
        up_in(Layout::New, 1000),
        send(1200, &examples::arm()),
        look(0, 1700),
        look(0, 1701),
    ];
    Script::of(&calls, 1700)
}

/// Both fields with the same kind of bytes after their texts.
fn dirty(bytes: &[u8], kind: fn(&mut [u8])) -> Vec<u8> {
    changed(&changed(bytes, TYPE, kind), DEVICE_NAME, kind)
}

/// Each kind of bytes after each text, and after both.
fn kinds() -> Script {
    let calls = KINDS.into_iter().zip(10..).flat_map(|(kind, value)| {
        let message = arm(value);
        let clock = 1200 + u64::from(value);
        [
            send(clock, &changed(&message, TYPE, kind)),
            look(0, clock),
            send(clock, &changed(&arm(value + 10), DEVICE_NAME, kind)),
            look(0, clock),
            send(clock + 1, &dirty(&arm(value + 20), kind)),
            look(0, clock + 2),
        ]
    });
    after_start(&calls.collect::<Vec<_>>(), 1300)
}

/// Fields that begin with other texts than the tile's, and such that are no text where a byte takes
/// the place of the 0 that ends it.
fn texts() -> Script {
    let changes = [
        (TYPE.start, 0),
        (TYPE.start + 5, 0),
        (TYPE.start + 9, b'S'),
        (DEVICE_NAME.start, 0),
        (DEVICE_NAME.start + 2, 0),
        (DEVICE_NAME.start + 3, b'2'),
    ];
    let others = changes.map(|(place, value)| {
        let message = dirty(&arm(8), FILLED);
        send(1300, &set(&message, place, value))
    });
    let clean = [(TYPE.start + 9, b'S'), (DEVICE_NAME.start + 3, b'2')];
    let clean = clean.map(|(place, value)| send(1300, &set(&arm(8), place, value)));
    let bind = send(1300, &examples::bind_messages()[0]);
    let calls = [&others[..], &clean, &[bind, look(0, 1200)]].concat();
    after_start(&calls, 1200)
}

/// Other numbers come where they came.
fn refused() -> Script {
    let message = dirty(&arm(8), FILLED);
    let calls = [
        send(1199, &message),
        send(1300, &set(&message, 57, 1)),
        send(1300, &set(&message, 1, 3)),
        send(1300, &message[..105]),
        send(1300, &[&message[..], &[0]].concat()),
        send(1300, &set(&message, DEVICE_NAME.start, 0x80)),
        send(1300, &without_text(Layout::New)),
        send(1300, &mended(message[..105].to_vec())),
        look(0, 1200),
        down(1300),
        send(1300, &message),
        up_in(Layout::Old, 1300),
        send(1400, &message),
        look(0, 1400),
    ];
    after_start(&calls, 1900)
}

/// Two names of which one is the front of the other, and what follows it is the rest of that.
fn two_names() -> Script {
    let other = b"Arm22";
    let message = |value| message(POSITION, ARM, &[value; 12]).bytes();
    let joined = |value| changed(&message(value), DEVICE_NAME, |rest| rest[0] = b'2');
    let calls = [
        add(POSITION, ARM, 10),
        add(POSITION, other, 10),
        add(POSITION, NEEDLE, 10),
        up_in(Layout::New, 5),
        send(6, &joined(7)),
        look(0, 6),
        look(1, 6),
        send(7, &set(&joined(8), DEVICE_NAME.start + 3, b'2')),
        look(0, 7),
        look(1, 7),
    ];
    Script::of(&calls, 8)
}

/// V 2 with something in every section, by chance clean or not.
fn all_sections(layout: Layout) -> Script {
    let mut random = Random::new(SEED);
    let extended = Sample::extended(layout);
    let sent = (0..12).flat_map(|value: u8| {
        let sample = extended.with(|sample| sample.content = vec![value; 12]);
        let bytes = by_chance(&mut random, &sample.bytes(), &[TYPE, DEVICE_NAME]);
        let clock = 10 + u64::from(value);
        [send(clock, &bytes), look(0, clock + 1)]
    });
    let first = [add(POSITION, ARM, 2), up_in(layout, 10)];
    let calls: Vec<Call> = first.into_iter().chain(sent).collect();
    Script::of(&calls, 24)
}

#[cfg(test)]
mod tests {
    use super::{all_sections, kinds, refused, texts, the_example, two_names, Layout};
    use crate::vectors::scripts::calls::START;

    #[test]
    fn the_3rd_example() {
        let line = format!("{START}, green 500 7, grey 501 7 | green 500 7");
        assert_eq!(the_example().brief(), line);
    }

    #[test]
    fn each_kind_counts() {
        let looks = (10..16).map(|value| {
            let [name, both] = [value + 10, value + 20];
            format!("accepted, green 0 {value}, accepted, green 0 {name}, accepted, green 1 {both}")
        });
        let looks = looks.collect::<Vec<_>>().join(", ");
        assert_eq!(kinds().brief(), format!("{START}, {looks} | green 84 35"));
    }

    #[test]
    fn tiles_go_by_the_texts() {
        let refused = [13, 13, 2, 13, 13, 2, 13, 13, 13].map(|number| format!("refused {number}"));
        let refused = refused.join(", ");
        let line = format!("{START}, {refused}, green 0 7 | green 0 7");
        assert_eq!(texts().brief(), line);
        let line = "added 0, added 1, added 2, accepted, accepted, green 0 7, empty, accepted, \
                    green 1 7, green 0 8 | green 2 7, green 1 8, empty";
        assert_eq!(two_names().brief(), line);
    }

    #[test]
    fn numbers_of_refusals() {
        let numbers = [15, 5, 4, 1, 12, 2, 2, 1].map(|number| format!("refused {number}"));
        let numbers = numbers.join(", ");
        let last = "green 0 7, accepted, refused 14, accepted, accepted, green 0 8";
        let line = format!("{START}, {numbers}, {last} | green 500 8");
        assert_eq!(refused().brief(), line);
    }

    #[test]
    fn messages_of_version_2_count() {
        for layout in Layout::BOTH {
            let looks = (0..12).map(|value| format!("accepted, green 1 {value}"));
            let looks = looks.collect::<Vec<_>>().join(", ");
            let line = format!("added 0, accepted, {looks} | grey 3 11");
            assert_eq!(all_sections(layout).brief(), line);
        }
    }
}
