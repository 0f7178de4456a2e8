//! The Rust side's functions. The archive's are called and never inlined; so are these.

use crate::baseline::bind_cursor::{self, Cursor};
use crate::baseline::message::{self, Answer};
use crate::baseline::replay::{self, CallAnswer};
use crate::baseline::{content, crc64};
use linked::Answered;
use reference::message::body::Layout;
use reference::message::Message;

#[inline(never)]
pub fn crc64(bytes: &[u8]) -> u64 {
    crc64::crc64(bytes)
}

#[inline(never)]
pub fn content_fault(type_text: &[u8], content: &[u8]) -> u8 {
    content::content_fault(type_text, content)
}

#[inline(never)]
pub fn first_child(content: &[u8]) -> Cursor {
    bind_cursor::first_child(content)
}

#[inline(never)]
pub fn next_child(content: &[u8], cursor: Cursor) -> Cursor {
    bind_cursor::next_child(content, cursor)
}

#[inline(never)]
pub fn read(layout: Layout, stream: &[u8]) -> Answer {
    message::read(layout, stream)
}

/// The numbers of an answer, in the order of `linked::read_fields`.
pub fn read_fields(layout: Layout, stream: &[u8]) -> [u64; linked::FIELDS] {
    let answer = read(layout, stream);
    [
        answer.number.into(),
        answer.step as u64,
        answer.version.into(),
        answer.type_len as u64,
        answer.name_len as u64,
        answer.time_stamp,
        answer.id.into(),
        answer.further_at as u64,
        answer.further_len as u64,
        answer.content_at as u64,
        answer.content_len as u64,
        answer.metadata_at as u64,
        answer.metadata_len as u64,
        answer.clean.into(),
    ]
}

/// The number of the answer and the bytes written, as `linked::write` gives them.
#[inline(never)]
pub fn write(layout: Layout, message: &Message, out: &mut [u8]) -> (u8, usize) {
    match message::write(layout, message, out) {
        Ok(count) => (0, count),
        Err(number) => (number, 0),
    }
}

/// What a look after all calls of a script shows, as `linked::look_after` gives it.
#[inline(never)]
pub fn look_after(script: &[u8], tile: usize, clock: u64) -> Answered {
    let answered = replay::look_after(script, tile, clock);
    let (kind, number) = match answered.answer {
        CallAnswer::Accepted => (0, 0),
        CallAnswer::Added(tile) => (1, tile as u64),
        CallAnswer::Empty => (2, 0),
        CallAnswer::Green(age) => (3, age),
        CallAnswer::Grey(age) => (4, age),
        CallAnswer::Refused(number) => (5, number.into()),
    };
    Answered {
        kind,
        number,
        value_len: answered.value.len as u64,
        value: answered.value.bytes,
    }
}
