//! The captured streams, cut in many ways. Their messages are all of V 1, so that the layouts of
//! the feeds take turns.

use super::{by_chance, cut_at, feed, opened_in, pieces, MEDIUM, WIDE};
use crate::feed::Pushes;
use crate::message::body::Layout;
use crate::random::Random;
use crate::vectors::streams::{messages, CAPTURES};

const SEED: u64 = 13;

pub fn feeds() -> Vec<Pushes> {
    let feeds = [
        in_pieces_of_a_header(),
        in_bytes(),
        around_headers_and_ends(),
        long_by_chance(),
        short_by_chance(),
    ];
    let feeds = feeds.concat().into_iter();
    let layouts = Layout::BOTH.into_iter().cycle();
    let feeds = layouts.zip(feeds);
    feeds
        .map(|(layout, feed)| opened_in(layout, feed))
        .collect()
}

/// Fragments as long as a header, and by one byte shorter and longer.
fn in_pieces_of_a_header() -> Vec<Pushes> {
    let of_capture = |(stream, room)| [57, 58, 59].map(|length| pieces(room, stream, length));
    let captures = CAPTURES.into_iter().zip([WIDE, MEDIUM]);
    captures.flat_map(of_capture).collect()
}

/// The shorter one byte by byte, also where most of its messages exceed the buffer, and in one
/// piece.
fn in_bytes() -> Vec<Pushes> {
    let [_, short] = CAPTURES;
    let bytes = [MEDIUM, 100].map(|room| pieces(room, short, 1));
    bytes.into_iter().chain([feed(MEDIUM, &[short])]).collect()
}

/// Each message of the shorter one cut around the end of its header, and around its own end.
fn around_headers_and_ends() -> Vec<Pushes> {
    let [_, short] = CAPTURES;
    let starts: Vec<usize> = starts(short).collect();
    let cut = |places: Vec<usize>| cut_at(MEDIUM, short, &places);
    let after =
        [0, 1, 57, 58, 59].map(|length| cut(starts.iter().map(|start| start + length).collect()));
    let before = cut(starts[1..].iter().map(|start| start - 1).collect());
    after.into_iter().chain([before]).collect()
}

/// Where the messages of a stream begin.
fn starts(stream: &[u8]) -> impl Iterator<Item = usize> + '_ {
    let lengths = messages(stream).into_iter().map(<[u8]>::len);
    lengths.scan(0, |next, length| {
        let start = *next;
        *next += length;
        Some(start)
    })
}

/// The longer one. The bounds of 1 give empty fragments.
fn long_by_chance() -> Vec<Pushes> {
    let mut random = Random::new(SEED);
    let [long, _] = CAPTURES;
    let ways: [(usize, &[usize]); 5] = [
        (WIDE, &[1, 2, 30, 120]),
        (131, &[1, 60, 200]),
        (86, &[1, 1000, 2000]),
        (58, &[1, 59, 60, 61]),
        (2505, &[300, 9000]),
    ];
    let feeds = ways.map(|(room, bounds)| by_chance(&mut random, room, long, bounds));
    feeds.to_vec()
}

/// The shorter one in buffers around the lengths of some of its messages.
fn short_by_chance() -> Vec<Pushes> {
    let mut random = Random::new(SEED + 1);
    let [_, short] = CAPTURES;
    let rooms = [MEDIUM, 58, 59, 62, 85, 86, 87, 133, 313, 314];
    let feeds = rooms.map(|room| by_chance(&mut random, room, short, &[1, 2, 10, 61, 200, 700]));
    feeds.to_vec()
}

#[cfg(test)]
mod tests {
    use super::{feeds, messages, starts, CAPTURES, MEDIUM, WIDE};
    use crate::vectors::feeds::tests::answers;

    /// With a buffer for all of them, as the reader answers them.
    #[test]
    fn each_message_is_answered_once() {
        let mut wide = 0;
        for feed in feeds() {
            let answers = answers(&feed);
            assert!([360, 54].contains(&answers.len()));
            if [MEDIUM, WIDE].contains(&feed.room) {
                wide += 1;
                let refused = answers.iter().filter(|&&number| number != 0);
                assert!([5, 1].contains(&refused.count()));
            }
        }
        assert_eq!(wide, 16);
    }

    #[test]
    fn the_last_message_ends_with_the_stream() {
        let [_, short] = CAPTURES;
        let starts: Vec<usize> = starts(short).collect();
        assert_eq!((starts.len(), starts[0]), (54, 0));
        assert_eq!(starts[53] + messages(short)[53].len(), short.len());
    }
}
