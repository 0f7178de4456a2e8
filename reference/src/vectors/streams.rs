//! Cases of streams: the answers from message to message, and the sample of the listing.

use super::case::Case;
use super::samples::{with_changes, Fields, Sample};
use super::{bundles, metadata, trees};
use crate::listing::{lines, Line};
use crate::message::body::Layout;
use crate::random::Random;

const SEED: u64 = 7;
const CHANCES: usize = 14;

/// Streams that the released C++ library wrote.
pub const CAPTURES: [&[u8]; 2] = [
    include_bytes!("../../../samples/library-a.igtl"),
    include_bytes!("../../../samples/library-b.igtl"),
];

pub fn cases() -> Vec<Case> {
    let mut random = Random::new(SEED);
    let captures = CAPTURES.map(<[u8]>::to_vec).to_vec();
    let [new, old] = Layout::BOTH.map(between_sound_ones);
    let streams = [
        captures,
        damaged_captures(&mut random),
        short_streams(),
        old,
        pairs(),
        by_chance(&mut random),
        vec![new_layout()],
        new,
        mixed(),
        Layout::BOTH
            .map(|layout| between(layout, &without_text(layout)))
            .to_vec(),
    ];
    streams.concat().iter().map(|stream| case(stream)).collect()
}

fn case(stream: &[u8]) -> Case {
    let case = Case::of_kind('S').given(stream);
    case.in_both(|case, layout| {
        let lines = lines(layout, stream).into_iter();
        let numbers = lines.flat_map(|Line { at, answer, step }| [at, answer.into(), step]);
        case.numbers(numbers)
    })
}

/// The messages of a stream, each cut out by its step, which is the same in both layouts.
pub fn messages(stream: &[u8]) -> Vec<&[u8]> {
    let lines = lines(Layout::New, stream).into_iter();
    let lines = lines.filter(|line| line.step > 0);
    let messages = lines.map(|line| &stream[line.at..line.at + line.step]);
    messages.collect()
}

/// The listing's input of rule 8.3: a message without a body, then one whose CRC is wrong.
pub fn listing_input() -> Vec<u8> {
    let sound = Sample::plain(b"GET_STATUS", &[]).bytes();
    let mut wrong = Fields::of(&Sample::plain(b"GET_STATUS", &[1]));
    wrong.crc = Some(0);
    [sound, wrong.bytes()].concat()
}

/// Messages of the new layout: without metadata and with some, with further bytes and a section of
/// no entries, one of the old layout (6), one whose sizes disagree with its section (7), and a last
/// one.
pub fn new_layout() -> Vec<u8> {
    let message = |id, type_text, content| Sample {
        version: 2,
        id,
        ..Sample::plain(type_text, content)
    };
    let arm = message(1, b"TRANSFORM", &[7; 48]);
    let entries: [(&[u8], &[u8]); 3] = [(b"unit", b"mm"), (b"room", b"2"), (b"note", b"")];
    let needle = Sample {
        metadata: metadata::section(&entries),
        ..message(2, b"POSITION", &[9; 28])
    };
    let further = Sample {
        further: vec![1, 2, 3],
        metadata: vec![0, 0],
        ..message(0x0102_0304, b"STATUS", b"content")
    };
    let layout = Layout::Old;
    let old = message(7, b"GET_STATUS", b"").with(|sample| sample.layout = layout);
    let mut disagreeing = Fields::of(&needle);
    (disagreeing.index_size, disagreeing.data_size) = (18, 23);
    let last = message(u32::MAX, b"GET_STATUS", b"");
    let front = [arm, needle, further, old].map(|sample| sample.bytes());
    [front.concat(), disagreeing.bytes(), last.bytes()].concat()
}

/// The shorter one with some bits changed, without its last byte, and from its second byte on.
fn damaged_captures(random: &mut Random) -> Vec<Vec<u8>> {
    let [_, short] = CAPTURES;
    let mut many = short.to_vec();
    for _ in 0..9 {
        many = trees::damaged(random, &many);
    }
    let cut = short[..short.len() - 1].to_vec();
    let shifted = short[1..600].to_vec();
    vec![many, cut, shifted]
}

fn short_streams() -> Vec<Vec<u8>> {
    let zeros = [0, 1, 57, 58, 59, 115, 116, 117].map(|length| vec![0; length]);
    let listing = listing_input();
    let cuts = [57, 58, 59, 115, 116, 117].map(|length| listing[..length].to_vec());
    let longer = [&listing[..], &listing[..57]].concat();
    let twice = [&listing[..], &listing].concat();
    let streams = zeros.into_iter().chain(cuts);
    streams.chain([longer, twice]).collect()
}

/// A message that is accepted, though the text of its device name is not followed by zeros alone,
/// and one for each number of the reader from 3 on; those of 4 and above step.
pub fn of_each_number(layout: Layout) -> Vec<Vec<u8>> {
    let mut streams = with_changes(
        &Sample::extended(layout),
        [
            |fields| fields.name_field[19] = 1,
            |fields| fields.body_size = Some(0x100_0001),
            |fields| fields.version = 3,
            |fields| fields.crc = Some(1),
            |fields| fields.extended_size = 11,
            |fields| fields.metadata[1] = 9,
            |fields| fields.content.push(9),
            |fields| fields.type_field = *b"IMAGE\0\0\0\0\0\0\0",
            |fields| fields.type_field = *b"BIND\0\0\0\0\0\0\0\0",
        ],
    );
    let deep = bundles::nest(4, &[]);
    streams.push(Sample::plain(b"BIND", &deep).bytes());
    streams
}

/// A message whose device name is no text, which is answered 2.
pub fn without_text(layout: Layout) -> Vec<u8> {
    let mut fields = Fields::of(&Sample::extended(layout));
    fields.name_field[3] = 0x80;
    fields.bytes()
}

/// Each of those for other numbers between two sound messages.
pub fn between_sound_ones(layout: Layout) -> Vec<Vec<u8>> {
    let streams = of_each_number(layout).into_iter();
    streams.map(|stream| between(layout, &stream)).collect()
}

/// A message between two sound ones.
pub fn between(layout: Layout, message: &[u8]) -> Vec<u8> {
    let first = Sample::extended(layout).bytes();
    let last = Sample::plain(b"TRANSFORM", &[7; 48]).bytes();
    [&first, message, &last].concat()
}

/// A sound message of each layout, between them one for each number from 4 on, in both layouts.
fn mixed() -> Vec<Vec<u8>> {
    let [first, last] = Layout::BOTH.map(|layout| Sample::extended(layout).bytes());
    let [new, old] = Layout::BOTH.map(of_each_number);
    let pairs = new.into_iter().zip(old).skip(2);
    let streams = pairs.map(|(new, old)| [&first[..], &old, &new, &last].concat());
    streams.collect()
}

/// Each of those of the old layout that step before each.
fn pairs() -> Vec<Vec<u8>> {
    let refused = &of_each_number(Layout::Old)[2..];
    let of_first = |first: &Vec<u8>| {
        let streams = refused.iter().map(|second| [&first[..], second].concat());
        streams.collect::<Vec<_>>()
    };
    refused.iter().flat_map(of_first).collect()
}

/// A few messages by chance, now and then with one bit changed.
fn by_chance(random: &mut Random) -> Vec<Vec<u8>> {
    let mut stream = || {
        let messages = (0..random.pick(&[2, 3, 4, 5])).map(|_| {
            let bytes = Sample::by_chance(random).bytes();
            if random.below(3) == 0 {
                trees::damaged(random, &bytes)
            } else {
                bytes
            }
        });
        messages.collect::<Vec<_>>().concat()
    };
    (0..CHANCES).map(|_| stream()).collect()
}

#[cfg(test)]
mod tests {
    use super::{listing_input, messages, mixed, new_layout, of_each_number, without_text};
    use super::{Layout, CAPTURES};
    use crate::fault::number;
    use crate::listing::{lines, table, Line};
    use crate::message::read;

    /// As rule 8.3 has it.
    #[test]
    fn the_listing_of_the_sample() {
        let input = listing_input();
        assert_eq!(input.len(), 58 + 59);
        let expected = "at answer step\n0 0 58\n58 5 59\n117 1 0\n";
        assert_eq!(table(&input), expected);
    }

    /// The one of 70 bytes that is answered 6 has the old layout.
    #[test]
    fn the_listing_of_the_new_layout() {
        let expected = "at answer step\n\
            0 0 118\n\
            118 0 139\n\
            257 0 82\n\
            339 6 70\n\
            409 7 139\n\
            548 0 70\n\
            618 1 0\n";
        assert_eq!(table(&new_layout()), expected);
        let old = lines(Layout::Old, &new_layout());
        let answers = old.iter().map(|line| line.answer);
        assert!(answers.eq([6, 6, 6, 0, 6, 6, 1]));
    }

    #[test]
    fn a_message_for_each_number() {
        for layout in Layout::BOTH {
            let streams = of_each_number(layout);
            let readings = streams.iter().map(|stream| read(layout, stream));
            let answers = readings.map(|reading| {
                assert!(!reading.clean);
                number(&reading.message)
            });
            assert!(answers.eq([0].into_iter().chain(3..=11)));
            let stream = without_text(layout);
            assert_eq!(number(&read(layout, &stream).message), 2);
        }
    }

    #[test]
    fn the_steps_of_mixed_layouts() {
        for stream in mixed() {
            let [new, old] = Layout::BOTH.map(|layout| lines(layout, &stream));
            let steps = |lines: &[Line]| lines.iter().map(|line| line.step).collect::<Vec<_>>();
            assert_eq!(steps(&new), steps(&old));
            assert_eq!([new[0].answer, new[3].answer], [0, 6]);
            assert_eq!([old[0].answer, old[3].answer], [6, 0]);
        }
    }

    /// The BINDs of 4 bytes that are no sound content: 00 03 40 42.
    #[test]
    fn all_messages_of_the_captures_but_six_are_accepted() {
        let refused = CAPTURES.map(|capture| {
            assert_eq!(messages(capture).concat(), capture);
            let lines = lines(Layout::New, capture);
            assert_eq!(lines, super::lines(Layout::Old, capture));
            let (last, messages) = lines.split_last().unwrap();
            assert_eq!((last.at, last.answer), (capture.len(), 1));
            let refused = messages.iter().filter(|line| line.answer > 0);
            let refused: Vec<_> = refused.collect();
            assert!(refused.iter().all(|line| line.answer == 10));
            (messages.len(), refused.len())
        });
        assert_eq!(refused, [(360, 5), (54, 1)]);
    }
}
