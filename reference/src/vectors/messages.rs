//! Cases of messages: what is answered of the front of a stream.

mod new_layout;

use super::bundles::{self, EMPTY};
use super::case::Case;
use super::patched::Patched;
use super::samples::{mended, set, with_changes, Fields, Sample};
use super::{headers, images, metadata, streams, trees};
use crate::fault::number;
use crate::message::body::Layout;
use crate::message::{read, Message};
use crate::random::Random;

const SEED: u64 = 8;
const CHANCES: usize = 70;

pub fn cases() -> Vec<Case> {
    let mut random = Random::new(SEED);
    let streams = [
        received(&mut random),
        lengths(),
        header_bytes(),
        Layout::BOTH.map(body_bytes).concat(),
        short_bodies(),
        extended_headers(),
        orders(),
        new_layout::streams(),
        headers_alone(),
        headers::texts(),
        sections(),
        contents().iter().map(Sample::bytes).collect(),
        long_sections(),
        by_chance(&mut random),
    ];
    let streams = streams.concat();
    let cases = streams.iter().map(|stream| message_case(stream));
    let long = long_streams();
    let long = long.iter().map(|stream| patched_case(stream));
    cases.chain(long).collect()
}

pub fn message_case(stream: &[u8]) -> Case {
    let case = Case::of_kind('R').given(stream);
    case.in_both(|case, layout| answered(case, layout, stream))
}

fn answered(case: Case, layout: Layout, stream: &[u8]) -> Case {
    let reading = read(layout, stream);
    let numbers = reading.numbers();
    let Message {
        type_text,
        device_name,
        body,
        ..
    } = reading.message.unwrap_or_default();
    case.numbers(numbers)
        .bytes(type_text)
        .bytes(device_name)
        .bytes(body.further)
        .bytes(body.metadata)
        .crc_of(body.content)
}

/// A stream too long for a record.
pub fn patched_case(stream: &[u8]) -> Case {
    let [length, patches] = Patched::of(stream).fields();
    let case = Case::of_kind('Q').given(&length).given(&patches);
    case.in_both(|case, layout| answered_briefly(case, layout, stream))
}

fn answered_briefly(case: Case, layout: Layout, stream: &[u8]) -> Case {
    let reading = read(layout, stream);
    let [_, content_at, metadata_at] = reading.places();
    let body = reading.message.unwrap_or_default().body;
    case.number(number(&reading.message))
        .number(reading.step)
        .numbers([content_at, body.content.len()])
        .numbers([metadata_at, body.metadata.len()])
        .mark(reading.clean)
}

/// Each message of the released library: as it is, with one bit changed, and every fourth with
/// another bit changed and the CRC made anew.
fn received(random: &mut Random) -> Vec<Vec<u8>> {
    let messages = streams::CAPTURES.into_iter().flat_map(streams::messages);
    let of_message = |(place, message): (usize, &[u8])| {
        let damaged = trees::damaged(random, message);
        let mut streams = vec![message.to_vec(), damaged];
        if place % 4 == 0 {
            streams.push(mended(trees::damaged(random, message)));
        }
        streams
    };
    messages.enumerate().flat_map(of_message).collect()
}

/// P5 cut off before each of its bytes, whole, and with bytes of a next message.
fn lengths() -> Vec<Vec<u8>> {
    let p5 = Sample {
        version: 2,
        ..Sample::plain(b"GET_STATUS", b"")
    };
    let twice = [p5.bytes(), p5.bytes()].concat();
    let lengths = (0..=72).chain([100, 128, 140]);
    lengths.map(|length| twice[..length].to_vec()).collect()
}

fn header_bytes() -> Vec<Vec<u8>> {
    let sound = Sample::plain(b"POSITION", &[9; 12]).bytes();
    let of_place = |place| {
        let values = [0, 1, 128, 255];
        values.map(|value| set(&sound, place, value))
    };
    (0..58).flat_map(of_place).collect()
}

/// Each byte of each section changed: the CRC left as it was, and made anew.
fn body_bytes(layout: Layout) -> Vec<Vec<u8>> {
    let sound = Sample::extended(layout).bytes();
    let of_place = |place: usize| {
        let [low, high] = [1, 128].map(|bit| set(&sound, place, sound[place] ^ bit));
        [low.clone(), mended(low), mended(high)]
    };
    (58..sound.len()).flat_map(of_place).collect()
}

/// P6 and the lengths around it, with their CRC, in each version; a MSG_ID of 7 in each layout.
fn short_bodies() -> Vec<Vec<u8>> {
    let old = [0, 12, 0, 0, 0, 0, 0, 7, 0, 0, 0, 0, 0, 0];
    let new = [0, 12, 0, 0, 0, 0, 0, 0, 0, 0, 0, 7, 0, 0];
    let of_version = |(version, body): (u8, [u8; 14])| {
        (0..=body.len()).map(move |length| {
            let plain = Sample::plain(b"STATUS", &body[..length]);
            set(&plain.bytes(), 1, version)
        })
    };
    let old = (0..=3).map(|version| (version, old));
    old.chain([(2, new)]).flat_map(of_version).collect()
}

/// Of the old layout: sizes of the two sections, the id and the reserved word; sums that are small
/// in 16 bits.
fn extended_headers() -> Vec<Vec<u8>> {
    let sizes = [0, 1, 11, 12, 13, 15, 16, 32, 0x010F, 0x7FFF, 0x8000, 65_535];
    let of_size = |size| {
        let sample = Sample::extended(Layout::Old);
        let [mut extended, mut metadata] = [(); 2].map(|()| Fields::of(&sample));
        extended.extended_size = size;
        metadata.metadata_size = size;
        [extended, metadata].map(|fields| fields.bytes())
    };
    let changed = with_changes(
        &Sample::extended(Layout::Old),
        [
            |fields| (fields.extended_size, fields.metadata_size) = (65_535, 13),
            |fields| (fields.extended_size, fields.metadata_size) = (65_535, 1),
            |fields| (fields.extended_size, fields.metadata_size) = (12, 65_524),
            |fields| (fields.extended_size, fields.metadata_size) = (32_768, 32_768),
            |fields| (fields.extended_size, fields.metadata_size) = (65_535, 65_535),
            |fields| (fields.extended_size, fields.metadata_size) = (12, 0),
            // All that follows is further bytes, or one byte too few is.
            |fields| (fields.extended_size, fields.metadata_size) = (53, 0),
            |fields| (fields.extended_size, fields.metadata_size) = (54, 0),
            |fields| (fields.extended_size, fields.metadata_size) = (27, 26),
            |fields| (fields.extended_size, fields.metadata_size) = (27, 27),
            |fields| fields.reserved = 1,
            |fields| fields.reserved = 0x8000_0000,
            |fields| fields.reserved = 0x0001_0000,
            |fields| fields.reserved = u32::MAX,
            |fields| (fields.id, fields.reserved) = (0, 1),
            |fields| fields.id = 0,
            |fields| fields.id = u32::MAX,
            |fields| fields.time_stamp = u64::MAX,
        ],
    );
    sizes.into_iter().flat_map(of_size).chain(changed).collect()
}

/// Two faults or more, in the old layout: the first in the reader's order counts.
fn orders() -> Vec<Vec<u8>> {
    with_changes(
        &Sample::extended(Layout::Old),
        [
            |fields| (fields.version, fields.crc) = (3, Some(0)),
            |fields| (fields.version, fields.body_size) = (3, Some(1000)),
            |fields| (fields.version, fields.reserved) = (3, 1),
            |fields| (fields.version, fields.body_size) = (3, Some(0x100_0001)),
            |fields| (fields.crc, fields.body_size) = (Some(0), Some(1000)),
            |fields| (fields.name_field[19], fields.body_size) = (1, Some(u64::MAX)),
            |fields| (fields.name_field[19], fields.version) = (1, 3),
            |fields| (fields.type_field[0], fields.body_size) = (128, Some(1000)),
            |fields| (fields.type_field[0], fields.crc) = (128, Some(0)),
            |fields| (fields.name_field[2], fields.body_size) = (128, Some(u64::MAX)),
            |fields| (fields.name_field[2], fields.version) = (128, 3),
            |fields| (fields.crc, fields.extended_size) = (Some(0), 11),
            |fields| (fields.crc, fields.metadata[1]) = (Some(0), 9),
            |fields| (fields.crc, fields.content) = (Some(0), vec![9; 11]),
            |fields| (fields.extended_size, fields.metadata[1]) = (11, 9),
            |fields| (fields.reserved, fields.metadata[1]) = (1, 9),
            |fields| (fields.reserved, fields.content) = (1, vec![9; 11]),
            |fields| (fields.metadata[1], fields.content) = (9, vec![9; 11]),
            |fields| (fields.type_field, fields.metadata[1]) = (*b"IMAGE\0\0\0\0\0\0\0", 9),
            |fields| (fields.type_field, fields.metadata[1]) = (*b"BIND\0\0\0\0\0\0\0\0", 9),
            |fields| fields.type_field = *b"BIND\0\0\0\0\0\0\0\0",
            |fields| fields.version = 0,
            |fields| fields.version = 3,
            |fields| fields.version = 0x0100,
            |fields| fields.version = 0x0201,
            |fields| fields.version = 65_535,
        ],
    )
}

/// A header alone: what is missing after it, and sizes above the limit.
fn headers_alone() -> Vec<Vec<u8>> {
    let sizes = [
        0,
        1,
        1 << 24,
        (1 << 24) + 1,
        1 << 32,
        u64::MAX,
        u64::MAX - 57,
    ];
    let streams = sizes.map(|size| {
        let mut fields = Fields::of(&Sample::plain(b"STATUS", b""));
        fields.body_size = Some(size);
        fields.bytes()
    });
    streams.to_vec()
}

/// No metadata, a section without entries, one byte; every other sample, from the second on, in the
/// old layout, and every third in the new one.
fn sections() -> Vec<Vec<u8>> {
    let of_layout = |(layout, step)| {
        let short = [vec![], vec![0, 0], vec![0]].into_iter();
        let samples = metadata::samples().into_iter().skip(1).step_by(step);
        let sections = short.chain(samples);
        sections.map(move |section| with_metadata(layout, section).bytes())
    };
    let layouts = [(Layout::Old, 2), (Layout::New, 3)];
    layouts.into_iter().flat_map(of_layout).collect()
}

pub fn with_metadata(layout: Layout, metadata: Vec<u8>) -> Sample {
    Sample {
        layout,
        version: 2,
        metadata,
        ..Sample::plain(b"", b"")
    }
}

/// Contents of every type on both sides of their rules, in each version.
pub fn contents() -> Vec<Sample> {
    let image = &images::p9().bytes();
    let around = |type_text: &'static [u8], lengths: &'static [usize]| {
        let lengths = lengths.iter();
        lengths.map(move |&length| (type_text, image[..length].to_vec()))
    };
    let images = images::samples().into_iter().step_by(5);
    let binds = bundles::samples().into_iter().step_by(7);
    let sound = bundles::sound().into_iter().chain(binds);
    let typed = around(b"TRANSFORM", &[0, 47, 48, 49, 72])
        .chain(around(b"POSITION", &[0, 11, 12, 13, 24, 27, 28, 29, 48]))
        .chain(around(b"IMAGE", &[0, 71, 72, 95, 96]))
        .chain(around(b"transform", &[0, 47, 48]))
        .chain(around(b"GET_POSITION", &[0, 13]))
        .chain(around(b"BINDX", &[0, 4]))
        .chain(images.map(|image| (&b"IMAGE"[..], image.bytes())))
        .chain(sound.map(|bind| (&b"BIND"[..], bind)));
    let deep = [3, 4].map(|times| (&b"BIND"[..], bundles::nest(times, &EMPTY)));
    typed.chain(deep).flat_map(both_versions).collect()
}

fn both_versions((type_text, content): (&[u8], Vec<u8>)) -> [Sample; 2] {
    let plain = Sample::plain(type_text, &content);
    let extended = Sample {
        version: 2,
        metadata: vec![0, 0],
        ..plain.clone()
    };
    [plain, extended]
}

/// Sections whose sizes take more than one byte of their fields; the longest in the old layout
/// alone.
fn long_sections() -> Vec<Vec<u8>> {
    let value = [7; 700];
    let metadata = metadata::section(&[(b"A", &value), (b"B", &value[..3])]);
    let further = |layout, length| {
        let sample = Sample::extended(layout);
        sample.with(|sample| sample.further = vec![5; length])
    };
    let of_layout = |layout| {
        let sections = [metadata.clone(), metadata::many()];
        let [long, many] = sections.map(|section| with_metadata(layout, section));
        [
            long,
            many,
            further(layout, 243),
            further(layout, 244),
            further(layout, 500),
        ]
    };
    let samples = Layout::BOTH.into_iter().flat_map(of_layout);
    let samples = samples.chain([further(Layout::Old, 32_756)]);
    samples.map(|sample| sample.bytes()).collect()
}

fn long_streams() -> Vec<Vec<u8>> {
    let [new, old] = Layout::BOTH.map(wide_sums);
    [old, long_bodies(), new, new_layout::long_streams()].concat()
}

/// The sizes of the extended header and of the metadata add up to more than 16 bits hold: a body of
/// as many bytes, longer ones, and one that lacks its last byte.
fn wide_sums(layout: Layout) -> Vec<Vec<u8>> {
    let one_entry = metadata::section(&[(b"A", &[0; 65_524])]);
    let of_metadata = |metadata: &Vec<u8>| {
        let sample = Sample {
            layout,
            version: 2,
            further: vec![0; 65_523],
            metadata: metadata.clone(),
            ..Sample::plain(b"TRANSFORM", &[0; 48])
        };
        let mut exact = Fields::of(&sample);
        exact.type_field = *b"STATUS\0\0\0\0\0\0";
        exact.content.clear();
        let mut longer = exact.clone();
        longer.content.push(0);
        let mut short = exact.clone();
        short.metadata.pop();
        let fields = [Fields::of(&sample), exact, longer, short];
        fields.map(|fields| fields.bytes())
    };
    let sections = [vec![0, 0], vec![0, 0, 0], one_entry];
    sections.iter().flat_map(of_metadata).collect()
}

/// Above a megabyte: whole, without the last byte, with the last byte changed, and then with the
/// CRC made anew.
fn long_bodies() -> Vec<Vec<u8>> {
    let bind = Patched::children(65_000).content();
    let status = set(&vec![0; 1_200_000], 0, b'A');
    let contents = [(&b"BIND"[..], bind), (b"STATUS", status)];
    let of_sample = |sample: Sample| {
        let whole = sample.bytes();
        let last = whole.len() - 1;
        let changed = set(&whole, last, 1);
        let mended = mended(changed.clone());
        [whole[..last].to_vec(), whole, changed, mended]
    };
    let samples = contents.into_iter().flat_map(both_versions);
    samples.flat_map(of_sample).collect()
}

/// By chance, whole, followed by another, with one bit changed, and then with the CRC made anew.
fn by_chance(random: &mut Random) -> Vec<Vec<u8>> {
    let streams = (0..CHANCES).flat_map(|_| {
        let stream = Sample::by_chance(random).bytes();
        let damaged = trees::damaged(random, &stream);
        let mended = mended(trees::damaged(random, &stream));
        let followed = [&stream[..], &stream[..20]].concat();
        [stream, followed, damaged, mended]
    });
    streams.collect()
}

#[cfg(test)]
mod tests {
    use super::{extended_headers, headers_alone, long_bodies, orders, wide_sums, Layout};
    use crate::fault::number;
    use crate::message::read;

    pub fn answers(layout: Layout, streams: &[Vec<u8>]) -> Vec<u8> {
        let readings = streams.iter().map(|stream| read(layout, stream));
        readings.map(|reading| number(&reading.message)).collect()
    }

    #[test]
    fn the_first_fault_in_the_order_counts() {
        let expected = [
            4, 1, 4, 3, 1, 3, 4, 2, 2, 2, 2, 5, 5, 5, 6, 6, 6, 7, 7, 7, 10, 4, 4, 4, 4, 4,
        ];
        assert_eq!(answers(Layout::Old, &orders()), expected);
        for layout in Layout::BOTH {
            assert_eq!(answers(layout, &headers_alone()), [0, 1, 1, 3, 3, 3, 3]);
        }
    }

    #[test]
    fn sizes_whose_sum_is_small_in_16_bits_are_refused() {
        let streams = &extended_headers()[24..29];
        for layout in Layout::BOTH {
            assert_eq!(answers(layout, streams), [6; 5]);
        }
    }

    #[test]
    fn sizes_whose_sum_passes_16_bits_are_added_whole() {
        let expected = [0, 0, 0, 6, 7, 7, 7, 6, 0, 0, 0, 6];
        for layout in Layout::BOTH {
            assert_eq!(answers(layout, &wide_sums(layout)), expected);
        }
    }

    /// Their MSG_ID is 0 and their section has no entries, so that the layouts are alike.
    #[test]
    fn bodies_above_a_megabyte() {
        let expected = [1, 0, 5, 10, 1, 0, 5, 7, 1, 0, 5, 0, 1, 0, 5, 7];
        for layout in Layout::BOTH {
            assert_eq!(answers(layout, &long_bodies()), expected);
        }
    }
}
