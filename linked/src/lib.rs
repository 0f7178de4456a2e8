//! The functions that crate `exports` has for other languages. A slice goes over as a pointer and a
//! length, and any bytes and numbers are allowed: none of the functions has a precondition.
//!
//! Each wrapper below is sound for the same reason, of which its SAFETY comment names the parts: a
//! pointer and a length come from one slice, which is lent for the call. A slice without bytes has
//! a pointer too, which is not null. The functions keep none of the pointers.

pub mod compare;
pub mod inputs;
pub mod tally;

use reference::message::body::Layout;
use reference::message::Message;

mod archive {
    // SAFETY: these are the signatures of `crates/exports/src/lib.rt`, where a slice is a pointer
    // and a length, and a lent number a pointer. A layout is a byte: 1 is the old one, and any
    // other the new one.
    unsafe extern "C" {
        pub fn kudireppa_crc64(bytes: *const u8, len: usize) -> u64;
        pub fn kudireppa_content_fault(
            type_text: *const u8,
            type_len: usize,
            content: *const u8,
            content_len: usize,
        ) -> u8;
        pub fn kudireppa_read(layout: u8, stream: *const u8, len: usize, number: *mut u8) -> usize;
        pub fn kudireppa_read_fields(
            layout: u8,
            stream: *const u8,
            len: usize,
            out: *mut u8,
            out_len: usize,
        );
        #[allow(clippy::too_many_arguments)]
        pub fn kudireppa_write(
            layout: u8,
            version: u16,
            time_stamp: u64,
            id: u32,
            type_text: *const u8,
            type_len: usize,
            device_name: *const u8,
            name_len: usize,
            further: *const u8,
            further_len: usize,
            content: *const u8,
            content_len: usize,
            metadata: *const u8,
            metadata_len: usize,
            out: *mut u8,
            out_len: usize,
            number: *mut u8,
        ) -> usize;
        pub fn kudireppa_answer_at(
            script: *const u8,
            len: usize,
            place: usize,
            out: *mut u8,
            out_len: usize,
        );
        pub fn kudireppa_look_after(
            script: *const u8,
            len: usize,
            tile: usize,
            clock: u64,
            out: *mut u8,
            out_len: usize,
        );
        pub fn kudireppa_first_child(
            content: *const u8,
            content_len: usize,
            out: *mut u8,
            out_len: usize,
        );
        pub fn kudireppa_next_child(
            content: *const u8,
            content_len: usize,
            cursor: *const u8,
            cursor_len: usize,
            out: *mut u8,
            out_len: usize,
        );
        pub fn kudireppa_feed(
            layout: u8,
            lengths: *const u8,
            lengths_len: usize,
            stream: *const u8,
            stream_len: usize,
            buffer: *mut u8,
            buffer_len: usize,
            out: *mut u8,
            out_len: usize,
        ) -> usize;
    }
}

pub fn crc64(bytes: &[u8]) -> u64 {
    // SAFETY: one slice, read.
    unsafe { archive::kudireppa_crc64(bytes.as_ptr(), bytes.len()) }
}

pub fn content_fault(type_text: &[u8], content: &[u8]) -> u8 {
    // SAFETY: two slices, read.
    unsafe {
        archive::kudireppa_content_fault(
            type_text.as_ptr(),
            type_text.len(),
            content.as_ptr(),
            content.len(),
        )
    }
}

/// What the outputs of a call hold before it: no answer has such numbers, so that one that is not
/// written shows.
const UNWRITTEN: u8 = 0xFF;

/// The number and the step of the front of a stream.
pub fn read(layout: Layout, stream: &[u8]) -> (u8, usize) {
    let mut number = UNWRITTEN;
    // SAFETY: one slice, read; the number, written.
    let step = unsafe {
        archive::kudireppa_read(layout.number(), stream.as_ptr(), stream.len(), &mut number)
    };
    (number, step)
}

/// How many numbers the answer to the front of a stream has: number, step, version, lengths of type
/// and device name, time stamp, id; place and length of each part: further bytes, content, metadata;
/// the mark, 1 where the message is clean.
pub const FIELDS: usize = 14;

/// All numbers of the answer to the front of a stream.
pub fn read_fields(layout: Layout, stream: &[u8]) -> [u64; FIELDS] {
    let mut out = [UNWRITTEN; 8 * FIELDS];
    // SAFETY: one slice, read; the array, written within its length.
    unsafe {
        archive::kudireppa_read_fields(
            layout.number(),
            stream.as_ptr(),
            stream.len(),
            out.as_mut_ptr(),
            out.len(),
        );
    }
    std::array::from_fn(|place| number_at(&out, 8 * place))
}

/// The number of the answer, and how many bytes were written to the front of the buffer.
pub fn write(layout: Layout, message: &Message, out: &mut [u8]) -> (u8, usize) {
    let Message {
        type_text,
        device_name,
        body,
        ..
    } = message;
    let mut number = UNWRITTEN;
    // SAFETY: five slices, read; a sixth, written within its length; the number, written. What is
    // written is lent exclusively, so that none of them overlap.
    let count = unsafe {
        archive::kudireppa_write(
            layout.number(),
            message.version,
            message.time_stamp,
            body.id,
            type_text.as_ptr(),
            type_text.len(),
            device_name.as_ptr(),
            device_name.len(),
            body.further.as_ptr(),
            body.further.len(),
            body.content.as_ptr(),
            body.content.len(),
            body.metadata.as_ptr(),
            body.metadata.len(),
            out.as_mut_ptr(),
            out.len(),
            &mut number,
        )
    };
    (number, count)
}

/// What a call on the panel answers.
#[derive(Clone, Copy, Debug, PartialEq, Eq)]
pub struct Answered {
    /// 0 accepted, 1 added, 2 empty, 3 green, 4 grey, 5 refused, 6 no call at that place.
    pub kind: u64,
    /// The tile, the age, or the number of the refusal.
    pub number: u64,
    pub value_len: u64,
    /// The value, and zeros after it.
    pub value: [u8; 48],
}

const ANSWERED_LENGTH: usize = 72;

/// What the call at a place of a script answers.
pub fn answer_at(script: &[u8], place: usize) -> Answered {
    let mut out = [UNWRITTEN; ANSWERED_LENGTH];
    // SAFETY: one slice, read; the array, written within its length.
    unsafe {
        archive::kudireppa_answer_at(
            script.as_ptr(),
            script.len(),
            place,
            out.as_mut_ptr(),
            out.len(),
        );
    }
    answered(&out)
}

/// What a look after all calls of a script shows.
pub fn look_after(script: &[u8], tile: usize, clock: u64) -> Answered {
    let mut out = [UNWRITTEN; ANSWERED_LENGTH];
    // SAFETY: one slice, read; the array, written within its length.
    unsafe {
        archive::kudireppa_look_after(
            script.as_ptr(),
            script.len(),
            tile,
            clock,
            out.as_mut_ptr(),
            out.len(),
        );
    }
    answered(&out)
}

fn answered(out: &[u8; ANSWERED_LENGTH]) -> Answered {
    Answered {
        kind: number_at(out, 0),
        number: number_at(out, 8),
        value_len: number_at(out, 16),
        value: std::array::from_fn(|place| out[24 + place]),
    }
}

/// What a push gives, or the refusal of an opening.
#[derive(Clone, Copy, Debug, PartialEq, Eq)]
pub struct Pushed {
    /// Those of the answer to a message, or the number of the refusal and zeros.
    pub numbers: [u64; FIELDS],
    /// 0 nothing yet, 1 read, 2 refused.
    pub kind: u64,
    pub taken: u64,
    pub kept: u64,
}

const PUSHED_LENGTH: usize = 8 * FIELDS + 24;

/// Opens a feed over the buffer and pushes the stream to it. Each push is offered as many bytes as
/// the next of the lengths says, from the first one that was not taken yet. What the last push
/// gives, and how many bytes all of them took.
pub fn feed(layout: Layout, lengths: &[u32], stream: &[u8], buffer: &mut [u8]) -> (Pushed, usize) {
    let lengths: Vec<u8> = lengths.iter().flat_map(|n| n.to_be_bytes()).collect();
    let mut out = [UNWRITTEN; PUSHED_LENGTH];
    // SAFETY: two slices, read; a third one and the array, written within their lengths. What is
    // written is lent exclusively, so that none of them overlap.
    let total = unsafe {
        archive::kudireppa_feed(
            layout.number(),
            lengths.as_ptr(),
            lengths.len(),
            stream.as_ptr(),
            stream.len(),
            buffer.as_mut_ptr(),
            buffer.len(),
            out.as_mut_ptr(),
            out.len(),
        )
    };
    let number = |place| number_at(&out, 8 * place);
    let pushed = Pushed {
        numbers: std::array::from_fn(number),
        kind: number(FIELDS),
        taken: number(FIELDS + 1),
        kept: number(FIELDS + 2),
    };
    (pushed, total)
}

/// A cursor in a walk through a BIND's children: the number, how many children are left, place and
/// length of the type, the name and the data of this one, and the mark.
pub type Cursor = [u64; 9];

const CURSOR_LENGTH: usize = 72;

/// The cursor at the first child.
pub fn first_child(content: &[u8]) -> Cursor {
    let mut out = [UNWRITTEN; CURSOR_LENGTH];
    // SAFETY: one slice, read; the array, written within its length.
    unsafe {
        archive::kudireppa_first_child(
            content.as_ptr(),
            content.len(),
            out.as_mut_ptr(),
            out.len(),
        );
    }
    std::array::from_fn(|place| number_at(&out, 8 * place))
}

/// The cursor after any other.
pub fn next_child(content: &[u8], cursor: Cursor) -> Cursor {
    let mut bytes = [0; CURSOR_LENGTH];
    for (field, number) in bytes.chunks_mut(8).zip(cursor) {
        field.copy_from_slice(&number.to_be_bytes());
    }
    let mut out = [UNWRITTEN; CURSOR_LENGTH];
    // SAFETY: a slice and an array, read; another array, written within its length.
    unsafe {
        archive::kudireppa_next_child(
            content.as_ptr(),
            content.len(),
            bytes.as_ptr(),
            bytes.len(),
            out.as_mut_ptr(),
            out.len(),
        );
    }
    std::array::from_fn(|place| number_at(&out, 8 * place))
}

/// The big-endian number in eight bytes of an answer.
fn number_at(out: &[u8], place: usize) -> u64 {
    let bytes = std::array::from_fn(|byte| out[place + byte]);
    u64::from_be_bytes(bytes)
}
