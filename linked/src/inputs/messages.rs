//! Messages and streams for the reader.

use super::contents::{self, Typed};
use super::damage::{add, change, edge, lengthen, number, resize, set};
use super::stock::Stock;
use super::{any_layout, any_or_few, mostly, Input};
use reference::crc::crc;
use reference::message::body::Layout;
use reference::random::Random;
use reference::vectors::samples::Sample;
use reference::vectors::{metadata, rests, streams};
use std::ops::Range;

const HEADER: usize = 58;
const BODY_SIZE: Range<usize> = 42..50;
const CRC: Range<usize> = 50..58;

/// METADATA_HEADER_SIZE and METADATA_SIZE of the new layout.
const INDEX_SIZE: Range<usize> = 60..62;
const DATA_SIZE: Range<usize> = 62..66;

/// The sizes in the extended header.
fn section_sizes(layout: Layout) -> Vec<Range<usize>> {
    let sizes = [58..60, INDEX_SIZE, DATA_SIZE];
    let count = match layout {
        Layout::New => 3,
        Layout::Old => 2,
    };
    sizes[..count].to_vec()
}

/// The largest body.
pub const LIMIT: u64 = 16_777_216;

pub fn any_bytes(random: &mut Random, _: &Stock) -> Input {
    let length = random.pick(&[20, 57, 58, 59, 100, 200]) + random.below(9);
    let mut stream = any_or_few(random, length);
    // A small BODY_SIZE, so that now and then the whole is there.
    if random.below(2) == 0 {
        let size = random.below(100) as u64;
        set(&mut stream, BODY_SIZE, size);
    }
    Input::Front(any_layout(random), stream)
}

/// A sound header, and a body of any bytes that only a section's rule refuses.
pub fn any_body(random: &mut Random, stock: &Stock) -> Input {
    let length = random.below(70);
    let body = any_or_few(random, length);
    let type_text = contents::typed(random, stock).type_text;
    let stream = Sample::plain(&type_text, &body).bytes();
    let mut stream = with_rests(random, stream);
    stream[1] = random.pick(&[1, 2, 2, 2]);
    // Half of the time an extended header that keeps its rule.
    let layout = any_layout(random);
    if random.below(2) == 0 {
        set(&mut stream, 58..60, 12);
        match layout {
            Layout::New => set_new_sizes(random, &mut stream),
            Layout::Old => set_old_sizes(random, &mut stream),
        }
    }
    mend(&mut stream);
    Input::Front(layout, stream)
}

fn set_old_sizes(random: &mut Random, stream: &mut [u8]) {
    let metadata_size = random.below(12) as u64;
    set(stream, 60..62, metadata_size);
    set(stream, 66..70, 0);
}

/// A section of two entries or fewer, whose count agrees with the size of its index.
fn set_new_sizes(random: &mut Random, stream: &mut [u8]) {
    let count = random.pick(&[0, 1, 1, 2]);
    let (index_size, data_size) = (2 + 8 * count, random.below(4) as u64);
    let section = stream
        .len()
        .saturating_sub((index_size + data_size) as usize)
        .max(70);
    set(stream, INDEX_SIZE, index_size);
    set(stream, DATA_SIZE, data_size);
    set(stream, section..section + 2, count);
}

/// Now and then with bytes of a next one.
pub fn whole(random: &mut Random, stock: &Stock) -> Input {
    let sample = sample(random, stock);
    let mut stream = with_rests(random, sample.bytes());
    if random.below(8) == 0 {
        lengthen(random, &mut stream);
    }
    Input::Front(mostly(random, sample.layout), stream)
}

pub fn with_a_fault(random: &mut Random, stock: &Stock) -> Input {
    let layout = any_layout(random);
    Input::Front(layout, faulty(random, stock, layout, 1))
}

pub fn with_two(random: &mut Random, stock: &Stock) -> Input {
    let layout = any_layout(random);
    Input::Front(layout, faulty(random, stock, layout, 2))
}

pub fn several(random: &mut Random, stock: &Stock) -> Input {
    let layout = any_layout(random);
    Input::Stream(layout, stream(random, stock, layout))
}

/// A few messages, most of them of this layout and some of them with a fault.
pub fn stream(random: &mut Random, stock: &Stock, layout: Layout) -> Vec<u8> {
    let messages = (0..random.pick(&[2, 3, 4, 5])).map(|_| {
        let faults = random.pick(&[0, 0, 1]);
        faulty(random, stock, layout, faults)
    });
    messages.collect::<Vec<_>>().concat()
}

/// One that the released library wrote, mostly with a fault; a few in a row, or a whole stream of
/// them, with a fault in some place.
pub fn captured(random: &mut Random, stock: &Stock) -> Input {
    let layout = any_layout(random);
    let all = &stock.captured;
    let first = random.below(all.len());
    match random.below(64) {
        0 => Input::Stream(layout, damaged_capture(random)),
        1..=8 => Input::Stream(layout, captured_stream(random, stock)),
        9..=16 => Input::Front(layout, with_rests(random, all[first].to_vec())),
        _ => {
            let mut stream = with_rests(random, all[first].to_vec());
            stream_fault(random, layout, &mut stream);
            mend_by_chance(random, &mut stream);
            Input::Front(layout, stream)
        }
    }
}

/// A few in a row, with a fault in some place.
pub fn captured_stream(random: &mut Random, stock: &Stock) -> Vec<u8> {
    let all = &stock.captured;
    let first = random.below(all.len());
    let last = all.len().min(first + 1 + random.below(5));
    let messages = all[first..last].iter();
    let messages = messages.map(|message| with_rests(random, message.to_vec()));
    let mut stream = messages.collect::<Vec<_>>().concat();
    let layout = any_layout(random);
    stream_fault(random, layout, &mut stream);
    stream
}

/// The shorter stream with up to nine changes.
fn damaged_capture(random: &mut Random) -> Vec<u8> {
    let mut stream = streams::CAPTURES[1].to_vec();
    for _ in 0..random.below(10) {
        change(random, &mut stream);
    }
    stream
}

/// What a message says: by chance, with contents and sections of more kinds now and then.
pub fn sample(random: &mut Random, stock: &Stock) -> Sample {
    let mut sample = Sample::by_chance(random);
    if random.below(2) == 0 {
        let Typed { type_text, content } = contents::typed(random, stock);
        (sample.type_text, sample.content) = (type_text, content);
    }
    if sample.version == 2 && random.below(8) == 0 {
        sample.metadata = stock.sections[random.below(stock.sections.len())].clone();
    }
    if sample.version == 2 && random.below(32) == 0 {
        sample.metadata = many_entries(random);
        sample.further = vec![edge(random); random.below(600)];
    }
    let typed = take_content(&mut sample).with_rests(random);
    give_content(&mut sample, typed);
    sample
}

/// The message half of the time with something after the texts in its header.
pub fn with_rests(random: &mut Random, message: Vec<u8>) -> Vec<u8> {
    if message.len() < HEADER || random.below(2) == 0 {
        return message;
    }
    rests::by_chance(random, &message, &[rests::TYPE, rests::DEVICE_NAME])
}

fn take_content(sample: &mut Sample) -> Typed {
    Typed {
        type_text: std::mem::take(&mut sample.type_text),
        content: std::mem::take(&mut sample.content),
    }
}

fn give_content(sample: &mut Sample, typed: Typed) {
    (sample.type_text, sample.content) = (typed.type_text, typed.content);
}

fn many_entries(random: &mut Random) -> Vec<u8> {
    let value = random.bytes(9);
    let entries: Vec<(&[u8], &[u8])> = (0..random.below(50))
        .map(|place| (&b"A key"[..1 + place % 5], &value[..place % 9]))
        .collect();
    metadata::section(&entries)
}

/// A message, mostly of this layout, with so many faults in its sections or in its fields.
fn faulty(random: &mut Random, stock: &Stock, layout: Layout, faults: usize) -> Vec<u8> {
    let mut sample = sample(random, stock);
    sample.layout = mostly(random, layout);
    let inner = random.below(faults + 1);
    for _ in 0..inner {
        sample_fault(random, &mut sample);
    }
    let mut stream = with_rests(random, sample.bytes());
    for _ in inner..faults {
        stream_fault(random, layout, &mut stream);
    }
    if faults > 0 {
        mend_by_chance(random, &mut stream);
    }
    stream
}

/// A fault in the metadata or in the content.
pub fn sample_fault(random: &mut Random, sample: &mut Sample) {
    if sample.version == 2 && random.below(2) == 0 {
        section_fault(random, &mut sample.metadata);
        return;
    }
    let mut typed = take_content(sample);
    contents::damage(random, &mut typed);
    give_content(sample, typed);
}

fn section_fault(random: &mut Random, section: &mut Vec<u8>) {
    if random.below(2) == 0 {
        let entries = usize::try_from(number(section, 0..2)).expect("two bytes");
        let mut sizes = vec![0..2, 2..4];
        for at in (2..).step_by(8).take(entries.min(5)) {
            sizes.extend([at..at + 2, at + 4..at + 8]);
        }
        resize(random, section, &sizes);
    } else {
        change(random, section);
    }
}

/// A fault in the bytes of a message, in the header and its sizes more than elsewhere.
fn stream_fault(random: &mut Random, layout: Layout, stream: &mut Vec<u8>) {
    let value = edge(random);
    let place = match random.below(12) {
        // V
        0 => random.pick(&[0, 1, 1]),
        // TYPE and DEVICE_NAME
        1 => 2 + random.below(32),
        // The reserved word of the old layout, MSG_ID of the new one
        2 => 66 + random.below(4),
        3..=4 => return set_body_size(random, stream),
        5..=6 => return resize(random, stream, &section_sizes(layout)),
        7..=8 => return change_length(random, stream),
        9 => return add(stream, CRC, 1 << random.below(64)),
        _ => return change(random, stream),
    };
    if let Some(byte) = stream.get_mut(place) {
        *byte = value;
    }
}

/// Around the true one, around the limit, and such that in fewer bits it is small.
fn set_body_size(random: &mut Random, stream: &mut [u8]) {
    let size = number(stream, BODY_SIZE);
    let sizes = [
        size.wrapping_sub(1),
        size.wrapping_add(1),
        size / 2,
        0,
        LIMIT,
        LIMIT + 1,
        1 << 32 | size,
        1 << 63 | size,
        u64::MAX,
        u64::MAX - 57,
        size.wrapping_sub(58),
        random.word(),
    ];
    set(stream, BODY_SIZE, random.pick(&sizes));
}

/// A body of another length, which BODY_SIZE follows.
fn change_length(random: &mut Random, stream: &mut Vec<u8>) {
    if stream.len() < HEADER {
        return;
    }
    let mut body = stream.split_off(HEADER);
    change(random, &mut body);
    set(stream, BODY_SIZE, body.len() as u64);
    stream.extend(body);
}

fn mend_by_chance(random: &mut Random, stream: &mut [u8]) {
    if random.below(3) > 0 {
        mend(stream);
    }
}

/// Gives the message at the front the CRC of what is there of its body.
fn mend(stream: &mut [u8]) {
    mend_with(crc, stream);
}

/// The same with another function for the CRC.
pub fn mend_with(crc: impl Fn(&[u8]) -> u64, stream: &mut [u8]) {
    let size = number(stream, BODY_SIZE);
    let rest = stream.get(HEADER..).unwrap_or_default();
    let length = usize::try_from(size).map_or(rest.len(), |size| size.min(rest.len()));
    let crc = crc(&rest[..length]);
    set(stream, CRC, crc);
}
