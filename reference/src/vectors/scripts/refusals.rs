//! Every number of a refusal from every call that can give it, and the order of the checks. Those
//! of an add stand with the tiles.

use super::calls::{add, after_start, after_start_in, arm, down, look, message};
use super::calls::{needle, send, start, up, up_in, ARM, NEEDLE, POSITION, TRANSFORM};
use super::Script;
use crate::message::body::Layout;
use crate::vectors::samples::{set, Sample};
use crate::vectors::{bundles, images, streams};

pub fn scripts() -> Vec<Script> {
    let single = [
        earlier_clocks(),
        the_clock_comes_before_the_link(),
        the_link_comes_before_the_bytes(),
        the_bytes_come_before_what_is_left_over(Layout::New),
        the_bytes_come_before_what_is_left_over(Layout::Old),
        what_is_left_over_comes_before_the_tiles(),
        the_tile_comes_before_the_clock(),
        no_tiles(),
    ];
    let numbers = Layout::BOTH.map(numbers_of_the_reader).concat();
    [single.to_vec(), numbers, for_nobody()].concat()
}

/// 15 of each call that has a clock, one before the panel's; at the panel's none is refused.
fn earlier_clocks() -> Script {
    let calls = [
        look(0, 1199),
        look(0, 0),
        send(1199, &arm(8)),
        up(1199),
        down(1199),
        look(0, 1200),
        send(1200, &arm(9)),
        up(1200),
        down(1200),
    ];
    after_start(&calls, 1199)
}

/// A message for each number of the reader from 1 to 11 but 2, and among them one that is accepted
/// and not clean, which is for no tile of a TRANSFORM.
pub fn refused_messages(layout: Layout) -> Vec<Vec<u8>> {
    let short = vec![arm(8)[..105].to_vec()];
    [short, streams::of_each_number(layout)].concat()
}

/// Each of them and one for 2 after P10's message: it changes nothing, and the clock stays.
fn numbers_of_the_reader(layout: Layout) -> Vec<Script> {
    let refused = refused_messages(layout).into_iter();
    let refused = refused.chain([streams::without_text(layout)]);
    let scripts = refused.map(|bytes| {
        let calls = [
            send(1300, &bytes),
            look(0, 1299),
            up_in(layout, 1299),
            send(1299, &bytes),
            look(0, 1299),
        ];
        after_start_in(layout, &calls, 1298)
    });
    scripts.collect()
}

/// 15 before 14, with the link down from the beginning and from a link down on.
fn the_clock_comes_before_the_link() -> Script {
    let [tile, ..] = start();
    let calls = [
        tile,
        send(0, &arm(8)),
        down(1000),
        send(999, &arm(8)),
        send(1000, &arm(8)),
        send(999, b""),
        up(1000),
        send(999, b""),
        send(1000, b""),
    ];
    Script::of(&calls, 1000)
}

/// 14 before every number of the reader, before 12 and before 13.
fn the_link_comes_before_the_bytes() -> Script {
    let others = [followed(&arm(8)), needle(12, 8), b"".to_vec()];
    let refused = Layout::BOTH.map(refused_messages).concat();
    let refused = refused.into_iter().chain(others);
    let sent = refused.map(|bytes| send(1300, &bytes));
    let calls: Vec<_> = [down(1300)].into_iter().chain(sent).collect();
    after_start(&calls, 1300)
}

fn followed(bytes: &[u8]) -> Vec<u8> {
    [bytes, &[0]].concat()
}

/// Of the reader's numbers those from 4 on, whose messages can be followed by something.
fn the_bytes_come_before_what_is_left_over(layout: Layout) -> Script {
    let refused = refused_messages(layout).into_iter().skip(3);
    let sent = refused.map(|bytes| send(1300, &followed(&bytes)));
    let wrong_crc = set(&arm(8), 57, 1);
    let last = [send(1300, &followed(&wrong_crc)), send(1300, &wrong_crc)];
    after_start_in(layout, &sent.chain(last).collect::<Vec<_>>(), 1200)
}

/// 12 before 13.
fn what_is_left_over_comes_before_the_tiles() -> Script {
    let calls = [
        send(1300, &followed(&needle(12, 8))),
        send(1300, &needle(12, 8)),
        send(1300, &followed(&arm(8))),
        look(0, 1200),
    ];
    after_start(&calls, 1200)
}

/// 19 before 15.
fn the_tile_comes_before_the_clock() -> Script {
    let calls = [
        look(1, 1199),
        look(0, 1199),
        look(1, 1200),
        look(u64::MAX, 0),
        add(POSITION, NEEDLE, 500),
        look(1, 1199),
        look(2, 1199),
    ];
    after_start(&calls, 1200)
}

/// A sound message is for nobody, and there is nothing to look at.
fn no_tiles() -> Script {
    let calls = [look(0, 0), up(5), send(6, &arm(8)), look(0, 6), down(5)];
    Script::of(&calls, 6)
}

/// 13: sound messages of another name or type, with a tile for the Arm's TRANSFORM; none counts,
/// and the clock stays.
fn for_nobody() -> Vec<Script> {
    let bind = bundles::bundle(&[bundles::part(TRANSFORM, ARM, &[8; 48])]);
    let others: [Sample; 15] = [
        message(TRANSFORM, b"", &[8; 48]),
        message(TRANSFORM, b"Ar", &[8; 48]),
        message(TRANSFORM, b"Arm2", &[8; 48]),
        message(TRANSFORM, b"arm", &[8; 48]),
        message(TRANSFORM, NEEDLE, &[8; 48]),
        message(TRANSFORM, b"Arm that has 20 byte", &[8; 48]),
        message(POSITION, ARM, &[8; 12]),
        message(b"GET_TRANS", ARM, b""),
        message(b"GET_TRANSFOR", ARM, &[8; 48]),
        message(b"transform", ARM, &[8; 48]),
        message(b"TRANSFORMS", ARM, &[8; 48]),
        message(b"", ARM, &[8; 48]),
        message(b"STATUS", ARM, &[8; 30]),
        message(b"IMAGE", ARM, &images::p9().bytes()),
        message(b"BIND", ARM, &bind),
    ];
    let scripts = others.iter().map(|other| {
        let calls = [send(1300, &other.bytes()), look(0, 1299)];
        after_start(&calls, 1200)
    });
    scripts.collect()
}

#[cfg(test)]
mod tests {
    use super::{
        earlier_clocks, for_nobody, no_tiles, numbers_of_the_reader,
        the_bytes_come_before_what_is_left_over, the_clock_comes_before_the_link,
        the_link_comes_before_the_bytes, the_tile_comes_before_the_clock,
        what_is_left_over_comes_before_the_tiles, Layout, Script,
    };
    use crate::vectors::scripts::calls::START;

    fn refused(numbers: impl IntoIterator<Item = u8>) -> String {
        let numbers = numbers.into_iter();
        let words = numbers.map(|number| format!("refused {number}"));
        words.collect::<Vec<_>>().join(", ")
    }

    #[test]
    fn clocks_before_the_panels() {
        let line = format!(
            "{}, green 0 7, accepted, accepted, accepted",
            refused([15; 5])
        );
        let expected = format!("{START}, {line} | refused 15");
        assert_eq!(earlier_clocks().brief(), expected);
    }

    fn scripts_of_the_reader() -> Vec<Script> {
        Layout::BOTH.map(numbers_of_the_reader).concat()
    }

    #[test]
    fn the_readers_numbers() {
        let numbers = [1, 13].into_iter().chain(3..=11).chain([2]);
        for (script, number) in scripts_of_the_reader().iter().zip(numbers.cycle()) {
            let refusal = format!("refused {number}");
            let looks = format!("{refusal}, green 99 7, accepted, {refusal}, grey 99 7");
            let expected = format!("{START}, {looks} | refused 15");
            assert_eq!(script.brief(), expected);
        }
        assert_eq!(scripts_of_the_reader().len(), 24);
    }

    #[test]
    fn orders() {
        let line = "added 0, refused 14, accepted, refused 15, refused 14, refused 15, accepted, \
                    refused 15, refused 1 | empty";
        assert_eq!(the_clock_comes_before_the_link().brief(), line);
        let line = format!("{START}, accepted, {} | grey 100 7", refused([14; 25]));
        assert_eq!(the_link_comes_before_the_bytes().brief(), line);
        let numbers = (4..=11).chain([5, 5]);
        let line = format!("{START}, {} | green 0 7", refused(numbers));
        for layout in Layout::BOTH {
            let script = the_bytes_come_before_what_is_left_over(layout);
            assert_eq!(script.brief(), line);
        }
        let line = format!("{START}, {}, green 0 7 | green 0 7", refused([12, 13, 12]));
        assert_eq!(what_is_left_over_comes_before_the_tiles().brief(), line);
        let first = refused([19, 15, 19, 19]);
        let line = format!("{START}, {first}, added 1, refused 15, refused 19 | green 0 7, empty");
        assert_eq!(the_tile_comes_before_the_clock().brief(), line);
        let line = "refused 19, accepted, refused 13, refused 19, accepted | ";
        assert_eq!(no_tiles().brief(), line);
    }

    #[test]
    fn sound_messages_for_nobody() {
        let line = format!("{START}, refused 13, green 99 7 | green 0 7");
        assert!(for_nobody().iter().all(|script| script.brief() == line));
    }
}
