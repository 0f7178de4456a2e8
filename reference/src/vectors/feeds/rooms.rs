//! Messages that fit their buffer to the byte, and such that exceed it.

use super::{by_chance, cut_at, feed, opened_in, pieces, with, WIDE};
use crate::feed::Pushes;
use crate::message::body::Layout;
use crate::random::Random;
use crate::vectors::samples::{with_changes, Sample};

const SEED: u64 = 17;

pub fn feeds() -> Vec<Pushes> {
    let around = Layout::BOTH.map(around_the_lengths).concat();
    [around, announced(), last_byte(), fills()].concat()
}

/// Messages of three lengths: 58, 106, and that of one with all sections.
fn stream(layout: Layout) -> Vec<u8> {
    let extended = Sample::extended(layout).bytes();
    let transform = Sample::plain(b"TRANSFORM", &[7; 48]).bytes();
    let status = Sample::plain(b"GET_STATUS", &[]).bytes();
    [&extended[..], &transform, &status, &extended].concat()
}

/// Buffers of each of those lengths, by one byte shorter and longer, and one for all: in one piece,
/// byte by byte, and by chance.
fn around_the_lengths(layout: Layout) -> Vec<Pushes> {
    let mut random = Random::new(SEED);
    let extended = Sample::extended(layout).bytes().len();
    let stream = stream(layout);
    let around = [58, 59, 105, 106, 107, extended - 1, extended, extended + 1];
    let rooms = around.into_iter().chain([WIDE]);
    let feeds = rooms.flat_map(|room| {
        let chances = by_chance(&mut random, room, &stream, &[1, 2, 59, 90]);
        [feed(room, &[&stream]), pieces(room, &stream, 1), chances]
    });
    feeds.map(|feed| opened_in(layout, feed)).collect()
}

/// The largest body is announced, and some of it comes: nothing of it is kept. A BODY_SIZE above
/// the limit stops the feed. The last two are the largest body that a wide buffer is enough for,
/// and one byte more, for which the longest buffer is enough.
fn announced() -> Vec<Pushes> {
    let streams = with_changes(
        &Sample::plain(b"STRING", &[7; 80]),
        [
            |fields| fields.body_size = Some(16_777_216),
            |fields| fields.body_size = Some(16_777_217),
            |fields| fields.body_size = Some(u64::MAX - 57),
            |fields| fields.body_size = Some(4096 - 58),
            |fields| fields.body_size = Some(4096 - 57),
        ],
    );
    let feeds = streams.iter().flat_map(|stream| {
        let narrow = cut_at(58, stream, &[40, 58, 58, 100]);
        [narrow, feed(WIDE, &[stream, b"more"])]
    });
    feeds.chain([feed(65_535, &[&streams[4]])]).collect()
}

/// A message that exceeds the buffer up to its last byte but one, then its last byte: alone, with
/// nothing, or with the next message.
fn last_byte() -> Vec<Pushes> {
    let message = Sample::plain(b"STRING", &[7; 80]).bytes();
    let status = Sample::plain(b"GET_STATUS", &[]).bytes();
    let (front, last) = message.split_at(137);
    let with_next = [last, &status].concat();
    vec![
        feed(137, &[front]),
        feed(137, &[front, &[]]),
        feed(137, &[front, last]),
        feed(137, &[front, &[], last, &status]),
        feed(137, &[front, &with_next]),
        with(feed(137, &[front]), 138, last),
        feed(138, &[front, &with_next]),
    ]
}

/// Buffers that were all of other values before.
fn fills() -> Vec<Pushes> {
    let layout = Layout::Old;
    let stream = stream(layout);
    let of_fill = |fill| Pushes::new(layout, 110, fill, &[&stream[..170], &stream[170..200]]);
    [0, 1, 0x7F, 0x80, 0xFF].map(of_fill).to_vec()
}

#[cfg(test)]
mod tests {
    use super::{announced, around_the_lengths, last_byte, stream, Layout};
    use crate::vectors::feeds::lines;
    use crate::vectors::samples::Sample;

    /// 58 and 106 bytes, and 58 + 12 + 3 + 12 + 25 of the other: its section has a count, two entry
    /// headers, and 7 bytes of keys and values.
    #[test]
    fn the_lengths_are_those_of_the_comments() {
        for layout in Layout::BOTH {
            assert_eq!(Sample::extended(layout).bytes().len(), 110);
            assert_eq!(stream(layout).len(), 110 + 106 + 58 + 110);
        }
    }

    /// How many of the messages fit.
    #[test]
    fn one_byte_decides() {
        let feeds = Layout::BOTH.map(around_the_lengths).concat();
        let sound = feeds.iter().map(lines).map(|lines| {
            let [fits, exceeds] = [" read 0 ", " read 20 "].map(|text| lines.matches(text).count());
            assert_eq!(fits + exceeds, 4);
            fits
        });
        let expected = [1, 1, 1, 2, 2, 2, 4, 4, 4].map(|count| [count; 3]);
        assert_eq!(sound.collect::<Vec<_>>(), expected.concat().repeat(2));
    }

    #[test]
    fn what_is_announced_is_waited_for() {
        let zeros = "0 ".repeat(12);
        let stops = format!("18 0 read 3 0 {zeros}");
        let feeds = announced();
        let of_feed = |place: usize| lines(&feeds[place]);
        let waits =
            "opened\n40 40 nothing\n18 0 nothing\n0 0 nothing\n42 0 nothing\n38 0 nothing\n";
        assert!(of_feed(0).starts_with(waits));
        assert!(of_feed(1).starts_with("opened\n138 0 nothing\n4 0 nothing\nbuffer "));
        let refused = "0 0 refused 21\n".repeat(3);
        let stopped = format!(
            "opened\n40 40 nothing\n{}\n{refused}buffer ",
            stops.trim_end()
        );
        assert!(of_feed(2).starts_with(&stopped));
        assert!(of_feed(4).starts_with(&stopped));
        assert!(of_feed(7).starts_with("opened\n138 138 nothing\n4 142 nothing\nbuffer "));
        assert!(of_feed(9).starts_with("opened\n138 0 nothing\n4 0 nothing\nbuffer "));
        assert!(of_feed(10).starts_with("opened\n138 138 nothing\nbuffer "));
    }

    #[test]
    fn the_answer_comes_with_the_last_byte() {
        let zeros = " 0".repeat(12);
        let answer = format!("1 0 read 20 138{zeros}");
        let next = "58 0 read 0 58 1 10 3 0 0 58 0 58 0 58 0 1";
        let sound = "1 0 read 0 138 1 6 3 0 0 58 0 58 80 138 0 1";
        let expected = [
            "137 0 nothing".to_string(),
            "137 0 nothing\n0 0 nothing".to_string(),
            format!("137 0 nothing\n{answer}"),
            format!("137 0 nothing\n0 0 nothing\n{answer}\n{next}"),
            format!("137 0 nothing\n{answer}\n{next}"),
            "137 0 nothing\n0 0 refused 20".to_string(),
            format!("137 137 nothing\n{sound}\n{next}"),
        ];
        for (feed, expected) in last_byte().iter().zip(expected) {
            assert!(lines(feed).starts_with(&format!("opened\n{expected}\nbuffer ")));
        }
    }
}
