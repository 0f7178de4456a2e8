//! A message for each number from 3 to 11, and one that is accepted and not clean, between two sound
//! ones, in each layout.

use super::{by_chance, feed, opened_in, pieces, MEDIUM};
use crate::feed::Pushes;
use crate::message::body::Layout;
use crate::random::Random;
use crate::vectors::streams::between_sound_ones;

const SEED: u64 = 19;

pub fn feeds() -> Vec<Pushes> {
    let of_layout = |layout| {
        let feeds = of_streams(layout).into_iter();
        feeds.map(move |feed| opened_in(layout, feed))
    };
    Layout::BOTH.into_iter().flat_map(of_layout).collect()
}

/// In one piece, byte by byte, and by chance, also in a buffer that only a header fits.
fn of_streams(layout: Layout) -> Vec<Pushes> {
    let mut random = Random::new(SEED);
    let feeds = between_sound_ones(layout).into_iter().flat_map(|stream| {
        let mut chance = |room| by_chance(&mut random, room, &stream, &[1, 2, 59, 90, 300]);
        [
            feed(MEDIUM, &[&stream]),
            pieces(MEDIUM, &stream, 1),
            chance(MEDIUM),
            chance(110),
            chance(58),
        ]
    });
    feeds.collect()
}

#[cfg(test)]
mod tests {
    use super::feeds;
    use crate::feed::Answer;
    use crate::vectors::feeds::tests::answers;
    use crate::vectors::feeds::MEDIUM;

    /// 3 is the last answer; after each other number the message behind it is accepted.
    #[test]
    fn the_feed_goes_on_after_most_refused_messages() {
        let feeds = feeds();
        let numbers = [0].into_iter().chain(3..=11);
        let numbers = numbers.flat_map(|number| [number; 5]).cycle();
        assert_eq!(feeds.len(), 100);
        for (feed, number) in feeds.iter().zip(numbers) {
            let expected = match (feed.room, number) {
                (58, 3) => vec![20, number],
                (58, _) => vec![20; 3],
                (_, 3) => vec![0, number],
                (MEDIUM, _) => vec![0, number, 0],
                _ => continue,
            };
            assert_eq!(answers(feed), expected);
        }
    }

    #[test]
    fn what_follows_a_stop_is_refused() {
        for feed in &feeds()[5..10] {
            let pushes = feed.join().unwrap().pushes();
            let last = pushes.last().unwrap();
            assert_eq!((last.taken, last.kept), (0, 0));
            assert!(matches!(last.answer, Answer::Refused(fault) if fault as u8 == 21));
        }
    }
}
