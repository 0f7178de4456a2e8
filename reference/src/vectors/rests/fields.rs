//! One field after the other with each kind of bytes after its text, and with bytes that no text
//! has: in a header, and in the CTYPE of a child.

use super::{changed, DEVICE_NAME, FILLED, KINDS, TYPE};
use crate::message::body::Layout;
use crate::vectors::bundles::{bundle, part};
use crate::vectors::case::Case;
use crate::vectors::children::lookup_case;
use crate::vectors::contents::typed_case;
use crate::vectors::headers::header_case;
use crate::vectors::message_writers::exact_case;
use crate::vectors::messages::message_case;
use crate::vectors::out::Out;
use crate::vectors::samples::{set, with_changes, Sample};
use crate::vectors::writers::Lists;
use std::ops::Range;

pub fn cases() -> Vec<Case> {
    let headers = headers();
    let read = headers.iter().map(|stream| header_case(stream));
    let messages = [ruled_types(), orders()].concat();
    let messages = headers.iter().step_by(3).chain(&messages);
    let messages = messages.map(|stream| message_case(stream));
    let contents = contents();
    let of_contents = contents.iter().flat_map(|content| judged(content));
    let some = contents.iter().skip(1).step_by(2);
    let of_some =
        some.flat_map(|content| [sent(content), written(content), written_as_data(content)]);
    let of_headers = read.chain(messages);
    of_headers.chain(of_contents).chain(of_some).collect()
}

/// Headers of messages without a body: an empty text and a short one with each kind; texts of all
/// bytes of their field and of all but one; bytes above 127 before the first 0, and behind it.
fn headers() -> Vec<Vec<u8>> {
    let header = |type_text: &[u8], name: &[u8]| {
        let sample = Sample::plain(type_text, b"");
        sample
            .with(|sample| sample.device_name = name.to_vec())
            .bytes()
    };
    let texts: [(&[u8], &[u8]); 2] = [(b"", b""), (b"STATUS", b"Arm")];
    let of_kinds = texts.into_iter().flat_map(|(type_text, name)| {
        let header = header(type_text, name);
        let fields = [TYPE, DEVICE_NAME].into_iter();
        fields.flat_map(move |field| of_each_kind(&header, field))
    });
    let short = header(b"STATUS", b"Arm");
    let others = [
        header(b"ELEVEN_BYTE", b"A name of 19 bytes!"),
        header(b"TWELVE_BYTES", b"A name of 20 bytes!!"),
        changed(&changed(&short, TYPE, FILLED), DEVICE_NAME, FILLED),
        set(&short, 2, 0x80),
        set(&short, 7, 0xFF),
        set(&short, 8, 0x80),
        set(&short, 9, 0x80),
        set(&short, 14, 0xFF),
        set(&short, 17, 0x80),
        set(&short, 18, 0x80),
        // The last byte of a full field.
        set(&header(b"TWELVE_BYTES", b"Arm"), 13, 0x80),
        set(&header(b"STATUS", b"A name of 20 bytes!!"), 33, 0x80),
        // A text that the byte in its middle cuts short.
        set(&short, 4, 0),
        set(&short, 15, 0),
    ];
    of_kinds.chain(others).collect()
}

fn of_each_kind(bytes: &[u8], field: Range<usize>) -> [Vec<u8>; 6] {
    KINDS.map(|kind| changed(bytes, field.clone(), kind))
}

/// Types with other bytes after them: contents that keep the type's rule, and such that break it.
fn ruled_types() -> Vec<Vec<u8>> {
    let kept: [(&[u8], &[u8]); 3] = [
        (b"POSITION", &[9; 12]),
        (b"BIND", &[0; 4]),
        (b"STATUS", &[9; 3]),
    ];
    let broken: [(&[u8], &[u8]); 4] = [
        (b"TRANSFORM", &[9; 3]),
        (b"POSITION", &[9; 3]),
        (b"IMAGE", &[9; 3]),
        (b"BIND", &[9; 3]),
    ];
    let messages = kept.into_iter().chain(broken);
    let messages = messages.map(|(type_text, content)| {
        let bytes = Sample::plain(type_text, content).bytes();
        changed(&bytes, TYPE, FILLED)
    });
    messages.collect()
}

/// Bytes after the texts together with another fault; V 2 in each layout.
fn orders() -> Vec<Vec<u8>> {
    let dirty = |bytes: &[u8]| changed(&changed(bytes, TYPE, FILLED), DEVICE_NAME, KINDS[4]);
    let plain = Sample::plain(b"POSITION", &[9; 12]);
    let faulty = with_changes(
        &plain,
        [
            |fields| fields.body_size = Some(13),
            |fields| fields.body_size = Some(0x100_0001),
            |fields| fields.version = 3,
            |fields| fields.crc = Some(0),
        ],
    );
    let whole = dirty(&plain.bytes());
    let cut = [57, 69].map(|length| whole[..length].to_vec());
    let extended = Layout::BOTH.map(|layout| dirty(&Sample::extended(layout).bytes()));
    let faulty = faulty.iter().map(|stream| dirty(stream));
    faulty.chain(cut).chain(extended).collect()
}

/// Contents with one child or two: CTYPE with an empty text and a short one with each kind, a text
/// of the whole field, bytes above 127 before the first 0 and behind it; and with other faults.
fn contents() -> Vec<Vec<u8>> {
    let of_type = |type_text| bundle(&[part(type_text, b"A", b"x")]);
    let of_kinds = [&b""[..], b"AB"].into_iter();
    let of_kinds =
        of_kinds.flat_map(|text| of_each_kind(&of_type(text), 2..14).into_iter().skip(1));
    let two = bundle(&[part(b"AB", b"A", b""), part(b"CD", b"B", b"")]);
    let short = bundle(&[part(b"POSITION", b"A", &[9])]);
    let wrong_pad = set(&of_type(b"AB"), 27, 1);
    let others = [
        of_type(b"TWELVE_BYTES"),
        of_type(b"ELEVEN_BYTE"),
        set(&of_type(b"AB"), 3, 0x80),
        set(&of_type(b"AB"), 4, 0x80),
        set(&of_type(b"AB"), 5, 0x80),
        set(&of_type(b"TWELVE_BYTES"), 13, 0x80),
        changed(&two, 2..14, FILLED),
        changed(&two, 22..34, FILLED),
        changed(&short, 2..14, FILLED),
        changed(&wrong_pad, 2..14, FILLED),
    ];
    of_kinds.chain(others).collect()
}

fn judged(content: &[u8]) -> [Case; 2] {
    [typed_case(b"BIND", content), lookup_case(content, 0, b"B")]
}

/// A content read in a message.
pub fn sent(content: &[u8]) -> Case {
    message_case(&Sample::plain(b"BIND", content).bytes())
}

/// A content written in a message.
pub fn written(content: &[u8]) -> Case {
    exact_case(&Sample::plain(b"BIND", content))
}

/// A content written as the data of a child.
pub fn written_as_data(content: &[u8]) -> Case {
    let lists = Lists::of(&[part(b"BIND", b"N", content)]);
    lists.case(Out::new(lists.length()))
}
