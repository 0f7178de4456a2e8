//! Messages of V 2 in both layouts, pushed to feeds of both.

use super::{by_chance, cut_each, feed, opened_in, pieces, MEDIUM};
use crate::feed::Pushes;
use crate::message::body::Layout;
use crate::random::Random;
use crate::vectors::samples::Sample;
use crate::vectors::streams::{between_sound_ones, new_layout};

const SEED: u64 = 23;

pub fn feeds() -> Vec<Pushes> {
    let feeds = [inside_the_extended_header(), the_sample()].concat();
    let of_layout = |layout| {
        let of_other = of_the_other(layout).into_iter();
        let feeds = feeds.clone().into_iter().chain(of_other);
        feeds.map(move |feed| opened_in(layout, feed))
    };
    Layout::BOTH.into_iter().flat_map(of_layout).collect()
}

/// A message with something in every section and one of no content, each in both layouts, and one
/// of V 1.
fn messages() -> [Vec<u8>; 5] {
    let status = |layout| Sample {
        layout,
        version: 2,
        id: 7,
        ..Sample::plain(b"GET_STATUS", b"")
    };
    let [new, old] = Layout::BOTH.map(|layout| Sample::extended(layout).bytes());
    let [new_status, old_status] = Layout::BOTH.map(|layout| status(layout).bytes());
    let last = Sample::plain(b"TRANSFORM", &[7; 48]).bytes();
    [new, old, new_status, old_status, last]
}

/// Each message cut at each place of the twelve bytes that the layouts differ in, and between all
/// of their fields.
fn inside_the_extended_header() -> Vec<Pushes> {
    let cut = |places: &[usize]| cut_each(MEDIUM, &messages(), places);
    let single = (58..=70).map(|place| cut(&[place]));
    single.chain([cut(&[60, 62, 66, 70])]).collect()
}

/// In one piece, in pieces of several lengths, and by chance, also where some messages exceed the
/// buffer.
fn the_sample() -> Vec<Pushes> {
    let mut random = Random::new(SEED);
    let stream = new_layout();
    let lengths = [1, 5, 12, 58, 61, 70];
    let in_pieces = lengths.map(|length| pieces(MEDIUM, &stream, length));
    let rooms = [MEDIUM, 139, 118, 70, 58];
    let chances = rooms.map(|room| by_chance(&mut random, room, &stream, &[1, 2, 9, 61, 150]));
    let whole = feed(MEDIUM, &[&stream]);
    [whole]
        .into_iter()
        .chain(in_pieces)
        .chain(chances)
        .collect()
}

/// Streams of the layout that this is not, in one piece and by chance.
fn of_the_other(layout: Layout) -> Vec<Pushes> {
    let mut random = Random::new(SEED + 1);
    let streams = between_sound_ones(layout.other()).into_iter();
    let feeds = streams.flat_map(|stream| {
        let chances = by_chance(&mut random, MEDIUM, &stream, &[1, 2, 59, 90, 300]);
        [feed(MEDIUM, &[&stream]), chances]
    });
    feeds.collect()
}

#[cfg(test)]
mod tests {
    use super::{feeds, inside_the_extended_header, of_the_other, opened_in, the_sample, Layout};
    use crate::vectors::feeds::tests::answers;

    #[test]
    fn cuts_inside_the_extended_header() {
        for feed in inside_the_extended_header() {
            let [new, old] = Layout::BOTH.map(|layout| answers(&opened_in(layout, feed.clone())));
            assert_eq!(new, [0, 6, 0, 6, 0]);
            assert_eq!(old, [6, 0, 6, 0, 0]);
        }
    }

    #[test]
    fn the_sample_in_both_layouts() {
        for feed in &the_sample()[..8] {
            let [new, old] = Layout::BOTH.map(|layout| answers(&opened_in(layout, feed.clone())));
            assert_eq!(new, [0, 0, 0, 6, 7, 0]);
            assert_eq!(old, [6, 6, 6, 0, 6, 6]);
        }
    }

    /// The first message is refused; the last one is of V 1. Between them are those for 3, which
    /// ends the stream, and for 4, 5, and 11, which is of V 1 too.
    #[test]
    fn streams_of_the_other_layout() {
        for layout in Layout::BOTH {
            let feeds = of_the_other(layout).into_iter();
            let numbers = feeds.map(|feed| answers(&opened_in(layout, feed)));
            let numbers: Vec<_> = numbers.step_by(2).collect();
            let of_version_1 = [vec![6, 4, 0], vec![6, 5, 0]];
            assert_eq!(numbers[0], [6, 6, 0]);
            assert_eq!(numbers[1], [6, 3]);
            assert_eq!(numbers[2..4], of_version_1);
            assert!(numbers[4..9].iter().all(|numbers| *numbers == [6, 6, 0]));
            assert_eq!(numbers[9], [6, 11, 0]);
        }
    }

    #[test]
    fn as_many_feeds_of_each_layout() {
        let feeds = feeds();
        let new = feeds.iter().filter(|feed| feed.layout == Layout::New);
        assert_eq!(2 * new.count(), feeds.len());
    }
}
