//! Messages whose texts are not followed by zeros alone, and such that have no text.

use super::{by_chance, cut_at, cut_each, feed, opened_in, pieces, MEDIUM};
use crate::feed::Pushes;
use crate::message::body::Layout;
use crate::random::Random;
use crate::vectors::rests::depths::each_level;
use crate::vectors::rests::examples::{arm, bind_messages};
use crate::vectors::rests::{changed, DEVICE_NAME, FILLED, KINDS, TYPE};
use crate::vectors::samples::Sample;
use crate::vectors::streams::{between, without_text};

const SEED: u64 = 37;

pub fn feeds() -> Vec<Pushes> {
    let feeds = Layout::BOTH.map(|layout| {
        let feeds = [no_text(layout), not_clean(layout), kinds(), levels()];
        let feeds = feeds.concat().into_iter();
        let feeds = feeds.map(|feed| opened_in(layout, feed));
        feeds.collect::<Vec<_>>()
    });
    feeds.concat()
}

/// A message answered 2 between sound ones: in one piece, byte by byte, cut in its name, and by
/// chance, also in a buffer that only a header fits.
fn no_text(layout: Layout) -> Vec<Pushes> {
    let mut random = Random::new(SEED);
    let stream = between(layout, &without_text(layout));
    let mut chance = |room| by_chance(&mut random, room, &stream, &[1, 2, 59, 90, 300]);
    let chances = [MEDIUM, 110, 58].map(&mut chance);
    let whole = [
        feed(MEDIUM, &[&stream]),
        pieces(MEDIUM, &stream, 1),
        cut_at(MEDIUM, &stream, &[110 + 14, 110 + 17, 110 + 18]),
    ];
    whole.into_iter().chain(chances).collect()
}

/// A TRANSFORM and a BIND with bytes after their texts, the BIND with the CRC of its body written
/// clean, one with all sections, and a clean one.
fn messages(layout: Layout) -> [Vec<u8>; 5] {
    let [received, reworked] = bind_messages();
    let extended = Sample::extended(layout).bytes();
    let extended = changed(&changed(&extended, TYPE, FILLED), DEVICE_NAME, KINDS[3]);
    let clean = Sample::plain(b"TRANSFORM", &[7; 48]).bytes();
    [arm(), received, reworked, extended, clean]
}

/// In one piece, byte by byte, each message cut in and around what follows its texts, and by
/// chance, also where some messages exceed the buffer.
fn not_clean(layout: Layout) -> Vec<Pushes> {
    let mut random = Random::new(SEED);
    let messages = messages(layout);
    let stream = messages.concat();
    // In TYPE, in DEVICE_NAME, and in the CTYPEs of the two BINDs.
    let places = [11, 12, 13, 14, 17, 18, 25, 33, 34, 65, 71, 96, 97];
    let cuts = places.map(|place| cut_each(MEDIUM, &messages, &[place]));
    let chances = [MEDIUM, 158, 157, 110, 106, 58].map(|room| {
        let bounds = [1, 2, 14, 59, 200];
        by_chance(&mut random, room, &stream, &bounds)
    });
    let whole = [feed(MEDIUM, &[&stream]), pieces(MEDIUM, &stream, 1)];
    whole.into_iter().chain(cuts).chain(chances).collect()
}

/// Each kind of bytes after TYPE and after DEVICE_NAME, one message after the other.
fn kinds() -> Vec<Pushes> {
    let message = Sample::plain(b"STATUS", b"ok").bytes();
    let fields = [TYPE, DEVICE_NAME].into_iter();
    let messages =
        fields.flat_map(|field| KINDS.map(|kind| changed(&message, field.clone(), kind)));
    let stream = messages.collect::<Vec<_>>().concat();
    [60, 59].map(|room| pieces(room, &stream, 15)).to_vec()
}

/// BINDs of one to four levels, each with one CTYPE that is not clean.
fn levels() -> Vec<Pushes> {
    let messages = each_level().into_iter();
    let messages = messages.map(|content| Sample::plain(b"BIND", &content).bytes());
    let stream = messages.collect::<Vec<_>>().concat();
    vec![feed(MEDIUM, &[&stream]), pieces(MEDIUM, &stream, 47)]
}

#[cfg(test)]
mod tests {
    use super::{feeds, kinds, levels, no_text, not_clean, opened_in, Layout, Pushes, MEDIUM};
    use crate::feed::Answer;
    use crate::vectors::feeds::tests::answers;

    /// The numbers and marks of the answers to messages.
    fn marked(feed: &Pushes) -> Vec<(u64, u64)> {
        let pushes = feed.join().unwrap().pushes().into_iter();
        let answers = pushes.filter_map(|push| match push.answer {
            Answer::Read(numbers) => Some((numbers[0], numbers[13])),
            _ => None,
        });
        answers.collect()
    }

    #[test]
    fn a_name_that_is_no_text_stops_the_feed() {
        for layout in Layout::BOTH {
            for feed in no_text(layout) {
                let first = if feed.room == 58 { 20 } else { 0 };
                assert_eq!(answers(&opened_in(layout, feed)), [first, 2]);
            }
        }
    }

    /// A message that exceeds the buffer has no mark.
    #[test]
    fn the_mark_comes_with_the_answer_however_the_stream_is_cut() {
        for layout in Layout::BOTH {
            for feed in not_clean(layout) {
                let feed = opened_in(layout, feed);
                let long = if feed.room < 158 { 20 } else { 0 };
                let expected = match feed.room {
                    58 => vec![(20, 0); 5],
                    106 => vec![(0, 0), (20, 0), (20, 0), (20, 0), (0, 1)],
                    110 | 157 => vec![(0, 0), (long, 0), (long, 0), (0, 0), (0, 1)],
                    _ => vec![(0, 0), (0, 0), (5, 0), (0, 0), (0, 1)],
                };
                assert_eq!(marked(&feed), expected);
            }
        }
    }

    #[test]
    fn zeros_alone_are_clean() {
        let [wide, narrow] = &kinds()[..] else {
            panic!("two feeds");
        };
        let of_field = [1, 0, 0, 0, 0, 0].map(|mark| (0, mark));
        assert_eq!(marked(wide), of_field.repeat(2));
        assert_eq!(marked(narrow), [(20, 0); 12]);
        assert!(levels().iter().all(|feed| marked(feed) == [(0, 0); 11]));
    }

    #[test]
    fn most_messages_fit() {
        let feeds = feeds();
        let wide = feeds.iter().filter(|feed| feed.room == MEDIUM);
        assert!(wide.count() > feeds.len() / 2);
    }
}
