//! Openings over buffers of several lengths, and pushes with buffers of another length.

use super::{feed, with, MEDIUM};
use crate::feed::Pushes;
use crate::vectors::samples::{set, Sample};

pub fn feeds() -> Vec<Pushes> {
    [openings(), other_lengths(), after_a_stop()].concat()
}

fn status() -> Vec<u8> {
    Sample::plain(b"GET_STATUS", &[]).bytes()
}

/// Where the opening is refused, nothing is pushed. Where it is not, the buffer is as it was.
fn openings() -> Vec<Pushes> {
    let rooms = [0, 1, 57, 58, 59];
    let openings = rooms.map(|room| feed(room, &[]));
    let pushed = [0, 57, 58].map(|room| feed(room, &[&status(), &[]]));
    openings.into_iter().chain(pushed).collect()
}

/// Before the first byte, in a header, in a body that is kept, in one that is passed over, and
/// after an answer: the feed goes on as if there had been no such push.
fn other_lengths() -> Vec<Pushes> {
    let message = Sample::plain(b"TRANSFORM", &[7; 48]).bytes();
    let feeds = [58, 106, MEDIUM].into_iter().flat_map(|room| {
        let others = [0, 10, 57, room - 1, room + 1, 65_535];
        others.map(|other| {
            let pieces = [&message[..20], &message[20..70], &message[70..], &[]];
            pieces.iter().fold(feed(room, &[]), |feed, piece| {
                let refused = with(with(feed, other, &message), other, &[]);
                with(refused, room, piece)
            })
        })
    });
    feeds.collect()
}

/// A header answered 2, then pushes with buffers of several lengths: 21 comes before 20.
fn after_a_stop() -> Vec<Pushes> {
    let wrong = set(&status(), 2, 0x80);
    let rooms = [58, 60].map(|room| {
        let others = [0, 57, 58, 59, 60, 65_535];
        let before = with(with(feed(room, &[]), 0, &wrong), 65_535, &wrong);
        let stopped = with(before, room, &wrong);
        others.iter().fold(stopped, |feed, &other| {
            with(with(feed, other, &status()), other, &[])
        })
    });
    rooms.to_vec()
}

#[cfg(test)]
mod tests {
    use super::{after_a_stop, openings, other_lengths};
    use crate::vectors::case::digits;
    use crate::vectors::feeds::lines;
    use crate::vectors::samples::{set, Sample};

    #[test]
    fn openings_over_several_lengths() {
        let untouched = |room: usize| format!("opened\nbuffer {}\n", "ee".repeat(room));
        let status = Sample::plain(b"GET_STATUS", &[]).bytes();
        let pushes = "58 0 read 0 58 1 10 3 0 0 58 0 58 0 58 0 1\n0 0 nothing\n";
        let refused = "refused 20\n".to_string();
        let expected = [
            refused.clone(),
            refused.clone(),
            refused.clone(),
            untouched(58),
            untouched(59),
            refused.clone(),
            refused,
            format!("opened\n{pushes}buffer {}\n", digits(&status)),
        ];
        assert!(openings().iter().map(lines).eq(expected));
    }

    #[test]
    fn another_length_changes_nothing() {
        let refused = |kept: usize| format!("0 {kept} refused 20\n").repeat(2);
        let zeros = " 0".repeat(12);
        let passed = format!("36 0 read 20 106{zeros}");
        let sound = "36 0 read 0 106 1 9 3 0 0 58 0 58 48 106 0 1".to_string();
        for (place, feed) in other_lengths().iter().enumerate() {
            let (kept, answer) = if place < 6 {
                (0, &passed)
            } else {
                (70, &sound)
            };
            let expected = [
                "opened\n".to_string(),
                refused(0) + "20 20 nothing\n",
                refused(20) + &format!("50 {kept} nothing\n"),
                refused(kept) + &format!("{answer}\n"),
                refused(0) + "0 0 nothing\nbuffer ",
            ];
            assert!(lines(feed).starts_with(&expected.concat()));
        }
    }

    #[test]
    fn a_stopped_feed_says_so_first() {
        let wrong = set(&Sample::plain(b"GET_STATUS", &[]).bytes(), 2, 0x80);
        let zeros = " 0".repeat(12);
        let before = "opened\n0 0 refused 20\n0 0 refused 20\n";
        let stop = format!("58 0 read 2 0{zeros}\n");
        let after = "0 0 refused 21\n".repeat(12);
        let buffers = [digits(&wrong), digits(&wrong) + "eeee"];
        let expected = buffers.map(|buffer| format!("{before}{stop}{after}buffer {buffer}\n"));
        assert!(after_a_stop().iter().map(lines).eq(expected));
    }
}
