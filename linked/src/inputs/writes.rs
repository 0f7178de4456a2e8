//! What the writer of messages is given.

use super::damage::edge;
use super::messages::{sample, sample_fault};
use super::stock::Stock;
use super::{any_layout, Input};
use reference::random::Random;
use reference::vectors::message_writers::length;
use reference::vectors::metadata;
use reference::vectors::samples::Sample;

pub fn messages(random: &mut Random, stock: &Stock) -> Input {
    let sample = sample(random, stock);
    into_room(random, sample)
}

/// One fault or two, in a sample made by chance or in a stored one.
pub fn with_faults(random: &mut Random, stock: &Stock) -> Input {
    let mut given = if random.below(2) == 0 {
        sample(random, stock)
    } else {
        let stored = &stock.written[random.below(stock.written.len())];
        let layout = any_layout(random);
        stored.with(|sample| sample.layout = layout)
    };
    for _ in 0..random.pick(&[1, 1, 2]) {
        fault(random, stock, &mut given);
    }
    into_room(random, given)
}

/// Mostly enough room; else one byte too few, a few, or none.
fn into_room(random: &mut Random, sample: Sample) -> Input {
    let exact = length(&sample);
    let few = random.below(exact);
    let rooms = [exact, exact, exact + 1, exact + 40, exact - 1, few, 0];
    Input::Message {
        room: random.pick(&rooms),
        first: edge(random),
        sample,
    }
}

fn fault(random: &mut Random, stock: &Stock, sample: &mut Sample) {
    match random.below(10) {
        0 => [sample.type_text, sample.device_name] = texts(random, stock),
        1 => sample.type_text = text(random, 12),
        2 => sample.device_name = text(random, 20),
        3 => sample.version = random.pick(&[0, 1, 2, 3, 7, 0x0102, 0xFFFF]),
        4 => sample.version = 3 - sample.version.min(3),
        5 => sample.id = random.pick(&[0, 1, u32::MAX]),
        6 if random.below(8) == 0 => long_section(random, sample),
        6 => sample.further.push(edge(random)),
        _ => sample_fault(random, sample),
    }
}

fn texts(random: &mut Random, stock: &Stock) -> [Vec<u8>; 2] {
    let texts = stock.texts[random.below(stock.texts.len())];
    texts.map(<[u8]>::to_vec)
}

/// Up to two bytes too long; half of the time with a byte that may be no text's.
fn text(random: &mut Random, most: usize) -> Vec<u8> {
    let mut text = vec![b'A'; random.below(most + 3)];
    if !text.is_empty() && random.below(2) == 0 {
        let place = random.below(text.len());
        text[place] = edge(random);
    }
    text
}

/// Around the most that a size field says, or a count around the most that the new layout has.
fn long_section(random: &mut Random, sample: &mut Sample) {
    let length = random.pick(&[65_523, 65_524, 65_535, 65_536, 65_548]);
    let zeros = vec![0; length];
    match random.below(4) {
        0 => sample.further = zeros,
        1 => sample.metadata = zeros,
        2 => sample.metadata = metadata::section(&[(b"Key", &zeros[13..])]),
        _ => sample.metadata = with_count(random, zeros),
    }
}

/// The section with another count, now and then without what follows it.
fn with_count(random: &mut Random, mut section: Vec<u8>) -> Vec<u8> {
    let count: u16 = random.pick(&[8_190, 8_191, 8_192, 8_193, 65_535]);
    section[..2].copy_from_slice(&count.to_be_bytes());
    if random.below(2) == 0 {
        section.truncate(2);
    }
    section
}
