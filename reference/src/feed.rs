//! The feed: what is answered where a stream comes in fragments. The fragments are joined first,
//! and each answer is worked out from the joined stream and the places where it was cut.

use crate::fault::Fault;
use crate::message::body::Layout;
use crate::message::header::{Header, LENGTH};
use crate::message::{read, NUMBERS};

/// A feed is opened over a buffer, and fragments are pushed to it. One that is not taken whole is
/// pushed again from its first byte that was not taken, until the push is refused.
#[derive(Clone, Debug)]
pub struct Pushes {
    /// The layout named at the opening.
    pub layout: Layout,
    /// The length of the buffer at the opening.
    pub room: usize,
    /// The value that all bytes of the buffer have at the opening.
    pub fill: u8,
    pub fragments: Vec<Fragment>,
}

/// A fragment, and the length of the buffer that is lent with it.
#[derive(Clone, Debug)]
pub struct Fragment {
    pub room: usize,
    pub bytes: Vec<u8>,
}

#[derive(Clone, Copy, Debug, PartialEq, Eq)]
pub enum Answer {
    /// No message has ended.
    Nothing,
    /// The numbers of the answer to the message that has ended.
    Read([u64; NUMBERS]),
    Refused(Fault),
}

/// A push of one of the fragments, from one of its bytes on, and what came of it.
#[derive(Clone, Copy, Debug, PartialEq, Eq)]
pub struct Push {
    /// The fragment's place in the list.
    pub fragment: usize,
    pub from: usize,
    pub taken: usize,
    /// How many bytes are kept after it.
    pub kept: usize,
    pub answer: Answer,
    /// How many bytes this push and those before it took.
    pub in_all: usize,
}

/// The stream that the fragments make together, and its messages.
pub struct Joined<'a> {
    given: &'a Pushes,
    stream: Vec<u8>,
    /// Up to the one that is not all there, or whose answer is 2 or 3.
    messages: Vec<Span>,
}

/// A message of the joined stream.
struct Span {
    start: usize,
    /// The end of the header where that is answered 2 or 3. Of a message that is not all there, a
    /// place after the stream.
    end: usize,
    /// The answer, where all of it is there.
    answer: [u64; NUMBERS],
    /// How many of its bytes go to the buffer.
    stored: usize,
}

impl Pushes {
    /// All fragments with the length of the opening.
    pub fn new(layout: Layout, room: usize, fill: u8, fragments: &[&[u8]]) -> Self {
        let fragments = fragments.iter().map(|bytes| Fragment {
            room,
            bytes: bytes.to_vec(),
        });
        Pushes {
            layout,
            room,
            fill,
            fragments: fragments.collect(),
        }
    }

    /// The joined stream, or why the opening is refused.
    pub fn join(&self) -> Result<Joined<'_>, Fault> {
        if self.room < LENGTH {
            return Err(Fault::Room);
        }
        let fragments = self.fragments.iter().map(|fragment| self.joined(fragment));
        let stream = fragments.collect::<Vec<_>>().concat();
        Ok(Joined {
            given: self,
            messages: self.messages(&stream),
            stream,
        })
    }

    fn messages(&self, stream: &[u8]) -> Vec<Span> {
        let first = self.message(stream, 0);
        let messages = std::iter::successors(Some(first), |last| {
            let more = !last.stops() && last.end <= stream.len();
            more.then(|| self.message(stream, last.end))
        });
        messages.collect()
    }

    /// The message at a place.
    fn message(&self, stream: &[u8], start: usize) -> Span {
        let rest = &stream[start..];
        let length = Header::parse(rest).map_or(LENGTH, |header| length(&header));
        let fits = length <= self.room;
        Span {
            start,
            end: start + length,
            answer: if fits {
                read(self.layout, rest).numbers()
            } else {
                exceeding(length)
            },
            stored: if fits { length } else { LENGTH },
        }
    }

    /// What a fragment adds to the joined stream: nothing where another length is lent with it.
    fn joined<'a>(&self, fragment: &'a Fragment) -> &'a [u8] {
        if fragment.room == self.room {
            &fragment.bytes
        } else {
            &[]
        }
    }
}

impl Span {
    fn stops(&self) -> bool {
        matches!(self.answer[0], 2 | 3)
    }
}

fn length(header: &Header) -> usize {
    LENGTH + usize::try_from(header.body_size).expect("a size within the limit")
}

/// The answer to a message of so many bytes, which are more than the buffer has.
fn exceeding(length: usize) -> [u64; NUMBERS] {
    let mut numbers = [0; NUMBERS];
    numbers[0] = Fault::Room as u64;
    numbers[1] = length as u64;
    numbers
}

impl Joined<'_> {
    pub fn pushes(&self) -> Vec<Push> {
        let fragments = 0..self.given.fragments.len();
        let pushes = fragments.flat_map(|fragment| self.pushes_of(fragment));
        pushes.collect()
    }

    /// The buffer after so many bytes were taken: each message that they begin went to the front.
    pub fn buffer(&self, in_all: usize) -> Vec<u8> {
        let mut buffer = vec![self.given.fill; self.given.room];
        for message in &self.messages {
            let taken = self.stream[..in_all].get(message.start..);
            let taken = taken.unwrap_or_default();
            let stored = &taken[..taken.len().min(message.stored)];
            buffer[..stored.len()].copy_from_slice(stored);
        }
        buffer
    }

    /// From the fragment's first byte on, and from each end of a message inside it.
    fn pushes_of(&self, fragment: usize) -> Vec<Push> {
        let start = self.before_stop(self.place(fragment));
        let end = self.place(fragment + 1);
        let ends = self.messages.iter().map(|message| message.end);
        let inside = ends.filter(|&place| start < place && place < end);
        let places = std::iter::once(start).chain(inside);
        let pushes = places.map(|at| Push {
            from: at - start,
            ..self.push(fragment, at, end)
        });
        pushes.collect()
    }

    /// The push of what stands from one place of the joined stream to another.
    fn push(&self, fragment: usize, at: usize, end: usize) -> Push {
        let mut messages = self.messages.iter();
        let ended = messages.find(|message| at < message.end && message.end <= end);
        let in_all = ended.map_or(self.before_stop(end), |message| message.end);
        let answer = match self.fault(fragment, at) {
            Some(fault) => Answer::Refused(fault),
            None => ended.map_or(Answer::Nothing, |message| Answer::Read(message.answer)),
        };
        Push {
            fragment,
            from: 0,
            taken: in_all - at,
            kept: self.kept(in_all),
            answer,
            in_all,
        }
    }

    fn fault(&self, fragment: usize, at: usize) -> Option<Fault> {
        if self.stop() == Some(at) {
            Some(Fault::Stopped)
        } else if self.given.fragments[fragment].room != self.given.room {
            Some(Fault::Room)
        } else {
            None
        }
    }

    /// Where a fragment begins in the joined stream.
    fn place(&self, fragment: usize) -> usize {
        let before = self.given.fragments[..fragment].iter();
        before.map(|before| self.given.joined(before).len()).sum()
    }

    /// The end of a header that is answered 2 or 3. No byte after it is taken.
    fn stop(&self) -> Option<usize> {
        let last = self.messages.last().filter(|message| message.stops());
        last.map(|message| message.end)
    }

    fn before_stop(&self, place: usize) -> usize {
        self.stop().map_or(place, |stop| place.min(stop))
    }

    /// How many bytes are kept after so many were taken. None are where all that are stored of the
    /// last message are there: it has ended, or its body is passed over.
    fn kept(&self, in_all: usize) -> usize {
        let mut messages = self.messages.iter().rev();
        let last = messages.find(|message| message.start <= in_all);
        let last = last.expect("the first message begins at 0");
        let taken = in_all - last.start;
        if taken < last.stored {
            taken
        } else {
            0
        }
    }
}

#[cfg(test)]
mod tests {
    use super::{Answer, Fragment, Layout, Push, Pushes};
    use crate::fault::{number, Fault};
    use crate::message::read;
    use crate::random::Random;
    use crate::vectors::samples::Sample;
    use crate::vectors::streams::{self, listing_input};

    /// The answers that are numbers of the reader's, by number and step.
    fn answers(pushes: &[Push]) -> Vec<[u64; 2]> {
        let answers = pushes.iter().filter_map(|push| match push.answer {
            Answer::Read([number, step, ..]) => Some([number, step]),
            _ => None,
        });
        answers.collect()
    }

    fn in_one_piece(layout: Layout, room: usize, stream: &[u8]) -> Vec<Push> {
        let pushes = Pushes::new(layout, room, 0, &[stream]);
        pushes.join().unwrap().pushes()
    }

    /// Each kind of refused message between two sound ones, in each layout, and the shorter
    /// capture.
    fn streams() -> Vec<Vec<u8>> {
        let [new, old] = Layout::BOTH.map(streams::between_sound_ones);
        [new, old, vec![streams::CAPTURES[1].to_vec()]].concat()
    }

    /// The streams, each with both layouts.
    fn in_both() -> Vec<(Layout, Vec<u8>)> {
        let streams = streams().into_iter();
        let pairs = streams.flat_map(|stream| Layout::BOTH.map(|layout| (layout, stream.clone())));
        pairs.collect()
    }

    /// The stream in fragments of up to 99 bytes.
    fn cut(random: &mut Random, layout: Layout, room: usize, stream: &[u8]) -> Pushes {
        let mut fragments = Vec::new();
        let mut rest = stream;
        while !rest.is_empty() {
            let bound = random.pick(&[1, 2, 9, 60, 100]);
            let length = random.below(bound).min(rest.len());
            let (fragment, after) = rest.split_at(length);
            fragments.push(fragment);
            rest = after;
        }
        Pushes::new(layout, room, 0xEE, &fragments)
    }

    #[test]
    fn a_buffer_of_58_bytes_is_enough() {
        for (room, expected) in [(0, 20), (57, 20), (58, 0)] {
            let pushes = Pushes::new(Layout::New, room, 0, &[]);
            assert_eq!(number(&pushes.join()), expected);
        }
    }

    #[test]
    fn a_wide_buffer_gives_the_answers_of_the_listing() {
        let expected = [[0, 58], [5, 59]];
        let listed = in_one_piece(Layout::New, 59, &listing_input());
        assert_eq!(answers(&listed), expected);
        for (layout, stream) in in_both() {
            let mut rest = &stream[..];
            for [number, step] in answers(&in_one_piece(layout, 4096, &stream)) {
                let numbers = read(layout, rest).numbers();
                assert_eq!(numbers[..2], [number, step]);
                rest = &rest[usize::try_from(step).unwrap()..];
            }
            assert!(rest.is_empty() || matches!(read(layout, rest).numbers()[0], 2 | 3));
        }
    }

    #[test]
    fn the_answers_are_the_same_however_the_stream_is_cut() {
        let mut random = Random::new(1);
        for (layout, stream) in in_both() {
            for room in [58, 86, 106, 4096] {
                let pushes = cut(&mut random, layout, room, &stream);
                let pushes = pushes.join().unwrap().pushes();
                let expected = in_one_piece(layout, room, &stream);
                assert_eq!(answers(&pushes), answers(&expected));
                let taken = |pushes: &[Push]| pushes.iter().map(|push| push.taken).sum::<usize>();
                assert_eq!(taken(&pushes), taken(&expected));
            }
        }
    }

    #[test]
    fn what_is_kept_and_what_was_read_stand_at_the_front_of_the_buffer() {
        let mut random = Random::new(2);
        for (layout, stream) in in_both() {
            let pushes = cut(&mut random, layout, 110, &stream);
            let joined = pushes.join().unwrap();
            for push in joined.pushes() {
                let buffer = joined.buffer(push.in_all);
                let taken = &stream[..push.in_all];
                assert!(taken.ends_with(&buffer[..push.kept]));
                match push.answer {
                    Answer::Read(numbers) if numbers[0] != 20 => {
                        assert_eq!(read(layout, &buffer).numbers(), numbers);
                    }
                    _ => (),
                }
            }
        }
    }

    /// The cut is in front of MSG_ID and inside it.
    #[test]
    fn a_message_is_read_in_the_layout_of_the_opening() {
        for written in Layout::BOTH {
            let stream = Sample::extended(written).bytes();
            let fragments = [&stream[..66], &stream[66..67], &stream[67..]];
            let expected = match written {
                Layout::New => [0, 6],
                Layout::Old => [6, 0],
            };
            for (layout, expected) in Layout::BOTH.into_iter().zip(expected) {
                let pushes = Pushes::new(layout, 110, 0, &fragments);
                let answers = answers(&pushes.join().unwrap().pushes());
                assert_eq!(answers, [[expected, 110]]);
            }
        }
    }

    #[test]
    fn a_message_larger_than_the_buffer_is_answered_at_its_last_byte() {
        let stream = Sample::plain(b"TRANSFORM", &[7; 48]).bytes();
        let header = [&stream[..58], &[0; 47]].concat();
        let fragments = [&stream[..58], &stream[58..105], &stream[105..]];
        let pushes = Pushes::new(Layout::New, 105, 0, &fragments);
        let joined = pushes.join().unwrap();
        let given = joined.pushes();
        let brief: Vec<_> = given.iter().map(|push| (push.taken, push.kept)).collect();
        assert_eq!(brief, [(58, 0), (47, 0), (1, 0)]);
        assert_eq!(answers(&given), [[20, 106]]);
        assert!(given
            .iter()
            .all(|push| joined.buffer(push.in_all) == header));
    }

    #[test]
    fn a_fragment_with_another_length_is_no_part_of_the_stream() {
        let stream = listing_input();
        let fragments = [&stream[..20], &stream[20..58]];
        let mut pushes = Pushes::new(Layout::New, 58, 0, &fragments);
        let bytes = b"any bytes".to_vec();
        pushes.fragments.insert(1, Fragment { room: 59, bytes });
        let given = pushes.join().unwrap().pushes();
        assert_eq!(given[1].answer, Answer::Refused(Fault::Room));
        assert_eq!((given[1].taken, given[1].kept), (0, 20));
        assert_eq!(answers(&given), [[0, 58]]);
    }

    #[test]
    fn nothing_is_taken_after_a_stop() {
        let [_, wrong, ..] = &streams::of_each_number(Layout::New)[..] else {
            panic!("a message for 3");
        };
        let mut pushes = Pushes::new(Layout::New, 60, 0, &[&wrong[..60], &[], wrong]);
        pushes.fragments[1].room = 3;
        let given = pushes.join().unwrap().pushes();
        let brief = given
            .iter()
            .map(|push| (push.fragment, push.from, push.taken));
        let expected = [(0, 0, 58), (0, 58, 0), (1, 0, 0), (2, 0, 0)];
        assert_eq!(brief.collect::<Vec<_>>(), expected);
        assert_eq!(answers(&given), [[3, 0]]);
        let refused = Answer::Refused(Fault::Stopped);
        assert!(given[1..].iter().all(|push| push.answer == refused));
    }
}
