//! Feeds for the program `feed_streams`: a feed is opened, and a stream is pushed to it in
//! fragments.

mod captures;
mod examples;
mod layouts;
mod lengths;
mod refusals;
mod rests;
mod rooms;

use super::case::{digits, field};
use crate::fault::number;
use crate::feed::{Answer, Fragment, Push, Pushes};
use crate::message::body::Layout;
use crate::random::Random;

/// What all bytes of most buffers are before the first push.
const FILL: u8 = 0xEE;

/// A buffer for every message of both captures.
const WIDE: usize = 4096;

/// One for every message of the shorter capture.
const MEDIUM: usize = 320;

pub fn feeds() -> Vec<Pushes> {
    [
        examples::feeds(),
        lengths::feeds(),
        rooms::feeds(),
        refusals::feeds(),
        captures::feeds(),
        layouts::feeds(),
        rests::feeds(),
    ]
    .concat()
}

/// Of the new layout, as all that are made here.
fn feed(room: usize, fragments: &[&[u8]]) -> Pushes {
    Pushes::new(Layout::New, room, FILL, fragments)
}

/// The feed opened with a layout.
fn opened_in(layout: Layout, feed: Pushes) -> Pushes {
    Pushes { layout, ..feed }
}

/// The stream in fragments of so many bytes.
fn pieces(room: usize, stream: &[u8], length: usize) -> Pushes {
    let fragments: Vec<&[u8]> = stream.chunks(length).collect();
    feed(room, &fragments)
}

/// The stream cut at these places, which ascend.
fn cut_at(room: usize, stream: &[u8], places: &[usize]) -> Pushes {
    let starts = [0].iter().chain(places);
    let ends = places.iter().copied().chain([stream.len()]);
    let fragments = starts.zip(ends).map(|(&start, end)| &stream[start..end]);
    feed(room, &fragments.collect::<Vec<_>>())
}

/// A stream of messages, each of them cut at these places of it, which ascend.
fn cut_each(room: usize, messages: &[Vec<u8>], places: &[usize]) -> Pushes {
    let starts = messages.iter().scan(0, |next, message| {
        let start = *next;
        *next += message.len();
        Some(start)
    });
    let places = starts.flat_map(|start| places.iter().map(move |place| start + place));
    cut_at(room, &messages.concat(), &places.collect::<Vec<_>>())
}

/// The stream in fragments by chance, each shorter than one of these bounds. A bound of 1 gives
/// empty ones.
fn by_chance(random: &mut Random, room: usize, stream: &[u8], bounds: &[usize]) -> Pushes {
    let mut fragments = Vec::new();
    let mut rest = stream;
    while !rest.is_empty() {
        let bound = random.pick(bounds);
        let (fragment, after) = rest.split_at(random.below(bound).min(rest.len()));
        fragments.push(fragment);
        rest = after;
    }
    feed(room, &fragments)
}

/// One more fragment, with a buffer of so many bytes.
fn with(mut feed: Pushes, room: usize, bytes: &[u8]) -> Pushes {
    let bytes = bytes.to_vec();
    feed.fragments.push(Fragment { room, bytes });
    feed
}

/// The byte that names a feed's layout. Bytes that name the new one take turns.
fn layout_byte(number: usize, layout: Layout) -> u8 {
    match layout {
        Layout::New => [0, 2, 128, 255][number % 4],
        Layout::Old => 1,
    }
}

/// The layout's byte, the length of the buffer and the value of its bytes, then the fragments: the
/// length of the buffer lent with each, and its bytes as a field.
fn record((number, feed): (usize, &Pushes)) -> Vec<u8> {
    let fragments = feed.fragments.iter();
    let fragments = fragments.flat_map(|fragment| {
        let room = two_bytes(fragment.room);
        [&room[..], &field(&fragment.bytes)].concat()
    });
    let layout = layout_byte(number, feed.layout);
    let opening = [layout].into_iter().chain(two_bytes(feed.room));
    let opening = opening.chain([feed.fill]);
    field(&opening.chain(fragments).collect::<Vec<_>>())
}

fn two_bytes(length: usize) -> [u8; 2] {
    let length = u16::try_from(length).expect("a length fits two bytes");
    length.to_be_bytes()
}

/// What is written of a feed: the opening's answer, a line for each push, the buffer at the end.
fn lines(feed: &Pushes) -> String {
    let joined = match feed.join() {
        Ok(joined) => joined,
        refused => return format!("refused {}\n", number(&refused)),
    };
    let pushes = joined.pushes();
    let in_all = pushes.last().map_or(0, |push| push.in_all);
    let buffer = digits(&joined.buffer(in_all));
    let pushes = pushes.iter().map(line).collect::<String>();
    format!("opened\n{pushes}buffer {buffer}\n")
}

fn line(push: &Push) -> String {
    let Push {
        taken,
        kept,
        answer,
        ..
    } = push;
    format!("{taken} {kept} {}\n", text(answer))
}

fn text(answer: &Answer) -> String {
    match answer {
        Answer::Nothing => "nothing".to_string(),
        Answer::Read(numbers) => format!("read {}", numbers.map(|n| n.to_string()).join(" ")),
        Answer::Refused(fault) => format!("refused {}", *fault as u8),
    }
}

/// The input: the records, and then one that lacks its last byte.
pub fn input(feeds: &[Pushes]) -> Vec<u8> {
    let cut_short = feed(58, &[b"cut short"]);
    let feeds = feeds.iter().chain([&cut_short]).enumerate();
    let mut bytes: Vec<u8> = feeds.flat_map(record).collect();
    bytes.pop();
    bytes
}

pub fn output(feeds: &[Pushes]) -> Vec<u8> {
    let feeds = feeds.iter().enumerate();
    let texts = feeds.map(|(number, feed)| format!("feed {number}\n{}", lines(feed)));
    texts.collect::<String>().into_bytes()
}

#[cfg(test)]
mod tests {
    use super::{by_chance, cut_at, feed, feeds, input, lines, opened_in, output, pieces, with};
    use crate::feed::{Answer, Pushes};
    use crate::message::body::Layout;
    use crate::random::Random;
    use std::collections::BTreeSet;

    #[test]
    fn a_record_and_its_lines() {
        let opened = with(feed(0x0102, &[&[7, 8]]), 0x0304, &[]);
        let old = opened_in(Layout::Old, feed(57, &[]));
        let feeds = [opened, old, feed(0, &[])];
        let record = input(&feeds);
        let opening = [0, 14, 0, 1, 2, 0xEE];
        let fragments = [1, 2, 0, 2, 7, 8, 3, 4, 0, 0];
        assert_eq!(record[..16], [&opening[..], &fragments].concat());
        assert_eq!(record[16..22], [0, 4, 1, 0, 57, 0xEE]);
        assert_eq!(record[22..28], [0, 4, 128, 0, 0, 0xEE]);
        let buffer = "ee".repeat(256);
        let expected = "feed 0\nopened\n2 2 nothing\n0 2 refused 20\nbuffer 0708";
        let refused = "feed 1\nrefused 20\nfeed 2\nrefused 20\n";
        let expected = format!("{expected}{buffer}\n{refused}");
        assert_eq!(output(&feeds), expected.into_bytes());
    }

    #[test]
    fn the_last_record_lacks_a_byte() {
        let opening = [0, 17, 0, 0, 58, 0xEE];
        let record = [&opening[..], &[0, 58, 0, 9], b"cut shor"].concat();
        assert_eq!(input(&[]), record);
    }

    /// The numbers of the answers to messages.
    pub fn answers(feed: &Pushes) -> Vec<u64> {
        let pushes = feed.join().unwrap().pushes().into_iter();
        let answers = pushes.filter_map(|push| match push.answer {
            Answer::Read(numbers) => Some(numbers[0]),
            _ => None,
        });
        answers.collect()
    }

    fn lengths(feed: &Pushes) -> Vec<usize> {
        let fragments = feed.fragments.iter();
        fragments.map(|fragment| fragment.bytes.len()).collect()
    }

    #[test]
    fn a_stream_is_cut_into_fragments() {
        let stream = [7; 10];
        assert_eq!(lengths(&pieces(58, &stream, 4)), [4, 4, 2]);
        assert_eq!(lengths(&cut_at(58, &stream, &[1, 8])), [1, 7, 2]);
        let cut = by_chance(&mut Random::new(1), 58, &stream, &[1, 4]);
        assert_eq!(lengths(&cut).iter().sum::<usize>(), 10);
        assert!(lengths(&cut).contains(&0));
    }

    /// 1 is the answer to a message that is not all there.
    #[test]
    fn the_feeds_give_every_answer() {
        let feeds = feeds();
        let joined = feeds.iter().filter_map(|feed| feed.join().ok());
        let answers = joined.flat_map(|joined| joined.pushes());
        let [mut read, mut refused] = [(); 2].map(|()| BTreeSet::new());
        for push in answers {
            match push.answer {
                Answer::Nothing => continue,
                Answer::Read(numbers) => read.insert(numbers[0]),
                Answer::Refused(fault) => refused.insert(fault as u64),
            };
        }
        let expected = [0, 2, 3, 4, 5, 6, 7, 8, 9, 10, 11, 20];
        assert!(read.into_iter().eq(expected));
        assert!(refused.into_iter().eq([20, 21]));
        let openings = feeds.iter().filter(|feed| lines(feed) == "refused 20\n");
        assert!(openings.count() > 1);
    }
}
