//! Streams for a feed, cut by chance.

use super::damage::edge;
use super::messages;
use super::stock::Stock;
use super::{any_layout, any_or_few, Input};
use reference::feed::Pushes;
use reference::message::body::Layout;
use reference::random::Random;
use reference::vectors::streams;

const HEADER: usize = 58;

/// Up to so many bytes a stream is now and then pushed byte by byte.
const SHORT: usize = 600;

pub fn several(random: &mut Random, stock: &Stock) -> Input {
    let layout = any_layout(random);
    let stream = messages::stream(random, stock, layout);
    pushed(random, layout, &stream)
}

pub fn captured(random: &mut Random, stock: &Stock) -> Input {
    let stream = messages::captured_stream(random, stock);
    pushed_in_any(random, &stream)
}

/// Any bytes, alone or after messages of the captures.
pub fn any_bytes(random: &mut Random, stock: &Stock) -> Input {
    let mut stream = match random.below(2) {
        0 => Vec::new(),
        _ => messages::captured_stream(random, stock),
    };
    let length = random.below(200);
    stream.extend(any_or_few(random, length));
    pushed_in_any(random, &stream)
}

fn pushed_in_any(random: &mut Random, stream: &[u8]) -> Input {
    let layout = any_layout(random);
    pushed(random, layout, stream)
}

/// The stream in fragments, then some pushes more.
fn pushed(random: &mut Random, layout: Layout, stream: &[u8]) -> Input {
    let lengths = lengths(stream);
    let room = room(random, &lengths);
    let mut fragments = cut(random, stream, &lengths);
    for _ in 0..random.pick(&[0, 0, 0, 1, 2]) {
        fragments.push(&stream[..random.below(stream.len().min(70) + 1)]);
    }
    Input::Feed(Pushes::new(layout, room, edge(random), &fragments))
}

/// The lengths of the messages, and of what is left after them.
fn lengths(stream: &[u8]) -> Vec<usize> {
    let messages = streams::messages(stream).into_iter().map(<[u8]>::len);
    let mut lengths: Vec<usize> = messages.collect();
    lengths.push(stream.len() - lengths.iter().sum::<usize>());
    lengths
}

/// Mostly around the length of a message; now and then too short for a header.
fn room(random: &mut Random, lengths: &[usize]) -> usize {
    let length = lengths[random.below(lengths.len())].max(HEADER);
    let longest = lengths.iter().copied().fold(HEADER, usize::max);
    let any = HEADER + random.below(longest);
    let rooms = [
        HEADER,
        HEADER + 1,
        length,
        length - 1,
        length + 1,
        longest,
        longest,
        4096,
        4096,
        any,
    ];
    match random.below(50) {
        0 => random.below(HEADER),
        _ => random.pick(&rooms),
    }
}

/// The fragments of a stream of messages that have these lengths.
fn cut<'a>(random: &mut Random, stream: &'a [u8], lengths: &[usize]) -> Vec<&'a [u8]> {
    match random.below(8) {
        0 => return vec![stream],
        1 if stream.len() <= SHORT => return stream.chunks(1).collect(),
        _ => (),
    }
    let marks = marks(lengths);
    let bound = random.pick(&[3, 20, 100, 500]);
    let mut fragments = Vec::new();
    let mut at = 0;
    while at < stream.len() {
        let end = next_cut(random, at, &marks, bound).min(stream.len());
        fragments.push(&stream[at..end]);
        at = end;
    }
    fragments
}

/// The places around the end of each header and each message, in its texts and between the fields of
/// an extended header.
fn marks(lengths: &[usize]) -> Vec<usize> {
    let mut start = 0;
    let marks = lengths.iter().flat_map(|length| {
        let at = start;
        start += length;
        let last = length.saturating_sub(1);
        let places = [1, 12, 14, 20, 34, 57, 58, 59, 60, 62, 66, 70, last, *length];
        places.map(|place| at + place)
    });
    let mut marks: Vec<usize> = marks.collect();
    marks.sort_unstable();
    marks
}

/// The end of the fragment that begins at this place: the same place, the next byte, a mark, one
/// header's length further, or less than the bound.
fn next_cut(random: &mut Random, at: usize, marks: &[usize], bound: usize) -> usize {
    match random.below(8) {
        0 => at,
        1 => at + 1,
        2..=4 => {
            let mut after = marks.iter().filter(|&&mark| mark > at);
            let mark = after.nth(random.pick(&[0, 0, 1, 2, 5]));
            mark.map_or(at + bound, |mark| *mark)
        }
        5 => at + random.pick(&[57, 58, 59]),
        _ => at + random.below(bound),
    }
}
