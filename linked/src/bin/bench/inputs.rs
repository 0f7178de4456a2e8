//! What is timed: messages, contents and scripts, made by the reference implementation. Every byte
//! of a buffer is written when it is made, and read when both sides' answers are compared, before
//! anything is timed.

use reference::content::bind::{self, Part};
use reference::content::image::Header;
use reference::message::body::{Body, Layout};
use reference::message::metadata::{self, Entry};
use reference::message::Message;
use reference::panel::Call;
use reference::script;
use reference::vectors::rests::type_fields;

/// Bytes of every value, in no simple order.
pub fn bytes(n: usize) -> Vec<u8> {
    (0..n as u64)
        .map(|i| (i.wrapping_mul(0x9E37_79B9_7F4A_7C15) >> 56) as u8)
        .collect()
}

// ---- messages

/// A message of V 1, from the Arm.
pub fn plain<'a>(type_text: &'a [u8], content: &'a [u8]) -> Message<'a> {
    Message {
        version: 1,
        time_stamp: 0x0123_4567_89AB_CDEF,
        type_text,
        device_name: b"Arm",
        body: Body {
            content,
            ..Body::default()
        },
    }
}

/// The layout of all messages of V 2.
pub const LAYOUT: Layout = Layout::New;

pub fn encoded(message: &Message) -> Vec<u8> {
    message.encode(LAYOUT).expect("a sound message")
}

/// A TRANSFORM of V 2 with metadata of four entries.
pub fn with_metadata() -> Vec<u8> {
    let entry = |key, value| Entry {
        key,
        encoding: 3,
        value,
    };
    let entries: [Entry; 4] = [
        entry(b"frame", b"tracker"),
        entry(b"unit", b"mm"),
        entry(b"quality", b"0.97"),
        entry(b"operator", b"teaching room 2"),
    ];
    let metadata = metadata::join(&entries).expect("a sound section");
    let content = bytes(48);
    let mut message = plain(b"TRANSFORM", &content);
    message.version = 2;
    message.body.id = 7;
    message.body.metadata = &metadata;
    encoded(&message)
}

/// An IMAGE of V 2 whose body has n * n bytes: n rows of n - 1 pixels, and in the extended
/// header as many further bytes as are missing then.
pub fn image(n: u16) -> Vec<u8> {
    let size = [n - 1, n, 1];
    let header = Header {
        components: 1,
        scalar_type: 3,
        endian: 1,
        coordinate: 1,
        size,
        part_size: size,
        ..Header::default()
    };
    let mut content = header.encode();
    content.extend(bytes(usize::from(n) * usize::from(n - 1)));
    let further = bytes(usize::from(n) - 12 - header.encode().len());
    let mut message = plain(b"IMAGE", &content);
    message.version = 2;
    message.body.further = &further;
    encoded(&message)
}

/// The message with a wrong CRC.
pub fn with_bad_crc(message: &[u8]) -> Vec<u8> {
    let mut message = message.to_vec();
    message[57] ^= 1;
    message
}

// ---- contents

/// A BIND of n children of this type and these bytes, with empty names.
pub fn bind(n: usize, type_text: &[u8], data: &[u8]) -> Vec<u8> {
    let child = Part {
        type_text,
        name: b"",
        data,
    };
    bind::join(&vec![child; n]).expect("a sound BIND")
}

/// The same with a byte at the end of each CTYPE field.
pub fn unclean_bind(n: usize, type_text: &[u8], data: &[u8]) -> Vec<u8> {
    let mut content = bind(n, type_text, data);
    for field in type_fields(&content) {
        content[field.end - 1] = 0xC8;
    }
    content
}

// ---- scripts

/// The tiles' hold time, which no clock of a script exceeds.
const HOLD_TIME: u64 = 60_000;

fn name(tile: u64) -> Vec<u8> {
    format!("Tool {tile}").into_bytes()
}

pub fn add(tile: u64) -> Call {
    Call::Add {
        type_text: b"TRANSFORM".to_vec(),
        name: name(tile),
        hold_time: HOLD_TIME,
    }
}

/// A message that counts for a tile, once its link is up.
pub fn pose(tile: u64, clock: u64) -> Call {
    let (name, content) = (name(tile), bytes(48));
    let mut message = plain(b"TRANSFORM", &content);
    message.device_name = &name;
    Call::Message {
        clock,
        bytes: encoded(&message),
    }
}

pub fn link_up(clock: u64) -> Call {
    Call::LinkUp {
        layout: LAYOUT,
        clock,
    }
}

/// A script that adds so many tiles, brings the link up at 1, has a message for the last tile at 2,
/// and makes n more calls, each of which is given a clock.
pub fn panel_script(tiles: u64, n: u64, call: impl Fn(u64) -> Call) -> Vec<u8> {
    let mut calls: Vec<Call> = (0..tiles).map(add).collect();
    calls.push(link_up(1));
    calls.push(pose(tiles - 1, 2));
    calls.extend((3..3 + n).map(call));
    script::encode(&calls)
}
