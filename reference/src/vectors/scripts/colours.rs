//! What a tile shows: empty, green up to the hold time, grey past it; the last value and its age.

use super::calls::{add, after_start, after_start_in, arm, look, message, needle, send, start, up};
use super::calls::{ARM, NEEDLE, POSITION, TRANSFORM};
use super::Script;
use crate::message::body::Layout;
use crate::vectors::samples::Sample;

pub fn scripts() -> Vec<Script> {
    let single = [
        p10(),
        p11(),
        p12(),
        empty_until_a_message_counts(),
        the_last_of_several_messages(),
        a_message_at_the_clock_of_the_last(),
        a_look_does_not_move_the_clock(),
        an_add_ends_no_green(),
        a_message_before_the_adding_does_not_count(),
        one_tile_of_two(),
        one_name_of_two_types(),
        positions_of_each_length(),
        a_shorter_value_after_a_longer(),
        version_2_with_every_section(Layout::New),
        version_2_with_every_section(Layout::Old),
        any_time_stamp(),
        clocks_of_0(),
        the_last_clock(),
        the_longest_age(),
    ];
    [single.to_vec(), around_the_hold_time()].concat()
}

fn p10() -> Script {
    after_start(&[look(0, 1700)], 1700)
}

fn p11() -> Script {
    after_start(&[look(0, 1701), look(0, 1199)], 1701)
}

fn p12() -> Script {
    let p11 = [look(0, 1701), look(0, 1199)];
    let p12 = [up(1400), look(0, 1400)];
    after_start(&[&p11[..], &p12].concat(), 1400)
}

/// Hold times at both ends; looks up to the last green, and one past it.
fn around_the_hold_time() -> Vec<Script> {
    let of_hold_time = |hold_time| {
        let calls = [
            add(TRANSFORM, ARM, hold_time),
            up(9),
            send(10, &arm(7)),
            look(0, 10),
            look(0, 9 + hold_time),
            look(0, 10 + hold_time),
            look(0, 11 + hold_time),
        ];
        [10, 11].map(|clock| Script::of(&calls, clock + hold_time))
    };
    let hold_times = [1, 2, 255, 256, 500, 59_999, 60_000];
    hold_times.into_iter().flat_map(of_hold_time).collect()
}

fn empty_until_a_message_counts() -> Script {
    let [tile, link, message] = start();
    let looks = [look(0, 1000), look(0, u64::MAX)];
    let fresh = [tile, look(0, 0), link];
    let refused = [send(1100, &arm(7)[1..]), look(0, 1100)];
    let counted = [message, look(0, 1200)];
    Script::of(&[&fresh[..], &looks, &refused, &counted].concat(), 1200)
}

fn the_last_of_several_messages() -> Script {
    let calls = [
        send(1300, &arm(8)),
        look(0, 1300),
        send(1801, &arm(9)),
        look(0, 1802),
        send(1803, &arm(7)),
        look(0, 1803),
    ];
    after_start(&calls, 2304)
}

fn a_message_at_the_clock_of_the_last() -> Script {
    let calls = [send(1200, &arm(8)), send(1200, &arm(9)), look(0, 1200)];
    after_start(&calls, 1200)
}

fn a_look_does_not_move_the_clock() -> Script {
    let calls = [
        look(0, u64::MAX),
        look(0, 1200),
        send(1201, &arm(8)),
        look(0, 5000),
        look(0, 1201),
    ];
    after_start(&calls, 1201)
}

/// The tile stays green, and the new one is empty.
fn an_add_ends_no_green() -> Script {
    let calls = [
        add(POSITION, NEEDLE, 1),
        look(0, 1300),
        look(1, 1300),
        add(TRANSFORM, ARM, 1),
        look(0, 1700),
    ];
    after_start(&calls, 1200)
}

fn a_message_before_the_adding_does_not_count() -> Script {
    let calls = [
        send(1300, &needle(12, 8)),
        add(POSITION, NEEDLE, 500),
        look(1, 1300),
        send(1300, &needle(12, 9)),
        look(1, 1300),
    ];
    after_start(&calls, 1300)
}

/// Each shows its own value, age and colour.
fn one_tile_of_two() -> Script {
    let calls = [
        add(POSITION, NEEDLE, 300),
        look(1, 1200),
        send(1400, &needle(12, 8)),
        look(0, 1700),
        look(1, 1700),
        look(0, 1701),
        look(1, 1701),
        send(1500, &arm(9)),
        look(0, 1500),
    ];
    after_start(&calls, 1701)
}

fn one_name_of_two_types() -> Script {
    let position = message(POSITION, ARM, &[8; 12]).bytes();
    let calls = [
        send(1201, &position),
        add(POSITION, ARM, 500),
        look(1, 1201),
        send(1201, &position),
        look(0, 1201),
        send(1202, &arm(9)),
        look(1, 1202),
    ];
    after_start(&calls, 1202)
}

fn positions_of_each_length() -> Script {
    let first = [add(POSITION, NEEDLE, 500), up(1000)];
    let sent = [12, 24, 28].map(|length| [send(1000, &needle(length, 7)), look(0, 1000)]);
    let refused = [0, 11, 13, 25, 29, 48].map(|length| send(1000, &needle(length, 8)));
    Script::of(&[&first[..], &sent.concat(), &refused].concat(), 1000)
}

/// Nothing of the longer one is left.
fn a_shorter_value_after_a_longer() -> Script {
    let sent = [28, 12, 24, 12].map(|length| [send(1200, &needle(length, 8)), look(1, 1200)]);
    let tile = [add(POSITION, NEEDLE, 500)];
    after_start(&[&tile[..], &sent.concat()].concat(), 1200)
}

/// The value is the content alone.
fn version_2_with_every_section(layout: Layout) -> Script {
    let extended = |content: &[u8], type_text: &[u8]| Sample {
        content: content.to_vec(),
        type_text: type_text.to_vec(),
        ..Sample::extended(layout)
    };
    let transform = extended(&[8; 48], TRANSFORM);
    let bare = transform.with(|sample| (sample.further, sample.metadata) = (vec![], vec![]));
    let position = extended(&[9; 24], POSITION);
    let calls = [
        send(1300, &transform.bytes()),
        look(0, 1300),
        send(1300, &bare.bytes()),
        send(1300, &position.bytes()),
        add(POSITION, ARM, 500),
        send(1301, &position.bytes()),
        look(1, 1301),
    ];
    after_start_in(layout, &calls, 1301)
}

/// A time stamp has no effect on what is shown (rule 3.13).
fn any_time_stamp() -> Script {
    let sent = [u64::MAX, 1, 1 << 63].map(|time_stamp| {
        let sample = Sample {
            time_stamp,
            ..message(TRANSFORM, ARM, &[8; 48])
        };
        [send(1300, &sample.bytes()), look(0, 1300)]
    });
    after_start(&sent.concat(), 1300)
}

fn clocks_of_0() -> Script {
    let tile = add(TRANSFORM, ARM, 1);
    let calls = [tile, up(0), send(0, &arm(7)), look(0, 0), look(0, 1), up(0)];
    Script::of(&calls, 0)
}

fn the_last_clock() -> Script {
    let last = u64::MAX;
    let calls = [
        add(TRANSFORM, ARM, 60_000),
        up(last),
        send(last, &arm(7)),
        look(0, last),
        look(0, last - 1),
        send(last - 1, &arm(8)),
        send(last, &arm(9)),
        up(last - 1),
        up(last),
        look(0, last),
    ];
    Script::of(&calls, last)
}

/// Small in fewer bits, and so below the hold time there.
fn the_longest_age() -> Script {
    let tile = add(TRANSFORM, ARM, 60_000);
    let ages = [1 << 16, 1 << 32, (1 << 32) + 1, 1 << 63, u64::MAX];
    let looks = ages.map(|age| look(0, age));
    let calls = [&[tile, up(0), send(0, &arm(7))], &looks[..]].concat();
    Script::of(&calls, u64::MAX)
}

#[cfg(test)]
mod tests {
    use super::{
        an_add_ends_no_green, around_the_hold_time, empty_until_a_message_counts,
        one_name_of_two_types, one_tile_of_two, p10, p11, p12, the_last_clock, the_longest_age,
        version_2_with_every_section, Layout, Script,
    };
    use crate::vectors::scripts::calls::START;

    #[test]
    fn p10_p11_and_p12_are_as_document_01_has_them() {
        let p10_line = format!("{START}, green 500 7 | green 500 7");
        let p11_line = format!("{START}, grey 501 7, refused 15 | grey 501 7");
        let p12_line =
            format!("{START}, grey 501 7, refused 15, accepted, grey 200 7 | grey 200 7");
        assert_eq!(p10().brief(), p10_line);
        assert_eq!(p11().brief(), p11_line);
        assert_eq!(p12().brief(), p12_line);
    }

    #[test]
    fn green_up_to_the_hold_time() {
        let briefs: Vec<_> = around_the_hold_time().iter().map(Script::brief).collect();
        let of_1 = format!("{START}, green 0 7, green 0 7, green 1 7, grey 2 7");
        assert_eq!(briefs[0], format!("{of_1} | green 1 7"));
        assert_eq!(briefs[1], format!("{of_1} | grey 2 7"));
        assert!(briefs[12].ends_with("green 59999 7, green 60000 7, grey 60001 7 | green 60000 7"));
    }

    #[test]
    fn empty_until_one_counts() {
        let line = "added 0, empty, accepted, empty, empty, refused 1, empty, accepted, green 0 7 \
                    | green 0 7";
        assert_eq!(empty_until_a_message_counts().brief(), line);
    }

    #[test]
    fn tiles_show_their_own() {
        let line = "added 1, empty, accepted, green 500 7, green 300 8, grey 501 7, grey 301 8, \
                    accepted, green 0 9 | green 201 9, grey 301 8";
        assert_eq!(one_tile_of_two().brief(), format!("{START}, {line}"));
        let line = "refused 13, added 1, empty, accepted, green 1 7, accepted, green 1 8 \
                    | green 0 9, green 1 8";
        assert_eq!(one_name_of_two_types().brief(), format!("{START}, {line}"));
    }

    #[test]
    fn messages_of_version_2_in_their_layout() {
        let line = "accepted, green 0 8, accepted, refused 13, added 1, accepted, green 0 9 \
                    | green 1 8, green 0 9";
        for layout in Layout::BOTH {
            let brief = version_2_with_every_section(layout).brief();
            assert_eq!(brief, format!("{START}, {line}"));
        }
    }

    #[test]
    fn an_add_leaves_the_colours() {
        let line = "added 1, green 100 7, empty, refused 17, green 500 7 | green 0 7, empty";
        assert_eq!(an_add_ends_no_green().brief(), format!("{START}, {line}"));
    }

    #[test]
    fn clocks_at_the_end_of_64_bits() {
        let line = "green 0 7, refused 15, refused 15, accepted, refused 15, accepted, grey 0 9 \
                    | grey 0 9";
        assert_eq!(the_last_clock().brief(), format!("{START}, {line}"));
        let greys = "grey 65536 7, grey 4294967296 7, grey 4294967297 7";
        assert!(the_longest_age().brief().contains(greys));
        assert!(the_longest_age()
            .brief()
            .ends_with("| grey 18446744073709551615 7"));
    }
}
