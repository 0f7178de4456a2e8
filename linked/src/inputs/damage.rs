//! Faults in any bytes, and in fields that hold sizes.

use reference::random::Random;
use reference::vectors::trees;
use std::ops::Range;

/// One change, whatever the bytes stand for.
pub fn change(random: &mut Random, bytes: &mut Vec<u8>) {
    if bytes.is_empty() {
        bytes.push(edge(random));
        return;
    }
    let place = random.below(bytes.len());
    match random.below(10) {
        0..=2 => *bytes = trees::damaged(random, bytes),
        3 => bytes[place] = edge(random),
        4 => bytes.truncate(place),
        5 => lengthen(random, bytes),
        6 => _ = bytes.remove(place),
        7 => bytes.insert(place, edge(random)),
        8 => fill(random, bytes),
        _ => *bytes.last_mut().expect("a last byte") ^= edge(random),
    }
}

/// A value that is the last on its side of some rule, or any.
pub fn edge(random: &mut Random) -> u8 {
    let any = random.bytes(1)[0];
    random.pick(&[0, 1, 2, 127, 128, 255, any, any])
}

/// A few bytes more.
pub fn lengthen(random: &mut Random, bytes: &mut Vec<u8>) {
    let count = random.pick(&[1, 1, 2, 3, 58]);
    let more = if random.below(2) == 0 {
        vec![0; count]
    } else {
        random.bytes(count)
    };
    bytes.extend(more);
}

/// One of the zeros set, half of the time the last: a pad, the end of a text, part of a size.
fn fill(random: &mut Random, bytes: &mut [u8]) {
    let zeros = bytes.iter_mut().filter(|byte| **byte == 0);
    let mut zeros: Vec<&mut u8> = zeros.collect();
    let Some(last) = zeros.len().checked_sub(1) else {
        return;
    };
    let place = random.below(zeros.len());
    let place = random.pick(&[place, last]);
    *zeros[place] = random.pick(&[1, 128, 255]);
}

/// One of these fields changed, or two so that in as many bits their sum is as before.
pub fn resize(random: &mut Random, bytes: &mut [u8], fields: &[Range<usize>]) {
    if fields.is_empty() {
        return;
    }
    let [first, second] = [(); 2].map(|()| fields[random.below(fields.len())].clone());
    let change = size_change(random, first.len());
    add(bytes, first, change);
    if random.below(2) == 0 {
        add(bytes, second, change.wrapping_neg());
    }
}

/// A little more or less, half of what so many bytes can hold, what fewer bytes leave out, or any.
fn size_change(random: &mut Random, length: usize) -> u64 {
    let half = 1 << (8 * length - 1);
    let any = random.word();
    let little = random.pick(&[1, 2, 3, 12, any % 100]);
    let choices = [
        little,
        little,
        little.wrapping_neg(),
        half,
        half / 2,
        1 << 32,
        256,
        any,
    ];
    random.pick(&choices)
}

/// Adds to the number in a field, which wraps. Nothing where the bytes end before it.
pub fn add(bytes: &mut [u8], field: Range<usize>, change: u64) {
    let number = number(bytes, field.clone());
    set(bytes, field, number.wrapping_add(change));
}

/// Sets the number in a field. Nothing where the bytes end before it.
pub fn set(bytes: &mut [u8], field: Range<usize>, number: u64) {
    if let Some(field) = bytes.get_mut(field) {
        let number = number.to_be_bytes();
        field.copy_from_slice(&number[number.len() - field.len()..]);
    }
}

/// The number in a field, or 0 where the bytes end before it.
pub fn number(bytes: &[u8], field: Range<usize>) -> u64 {
    let field = bytes.get(field).unwrap_or_default();
    let field = field.iter().map(|&byte| u64::from(byte));
    field.fold(0, |number, byte| number << 8 | byte)
}
