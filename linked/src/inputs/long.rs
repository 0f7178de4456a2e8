//! Long inputs, on both sides of the limit of a body and of what a BIND's fields hold. They are
//! few, and the same in every run.

use super::messages::{mend_with, LIMIT};
use super::Input;
use crate::crc64;
use reference::content::image::Header;
use reference::feed::Pushes;
use reference::message::body::Layout::{self, New, Old};
use reference::random::Random;
use reference::vectors::patched::Patched;
use reference::vectors::samples::{Fields, Sample};
use reference::vectors::scripts::calls;
use reference::vectors::{bundles, images, metadata, streams};

const MOST: usize = LIMIT as usize;
const MORE: usize = 20_000_000;

/// The longest section, with which a body has no content.
const LONGEST: usize = MOST - 12;

/// A kind of long inputs, and those of it by name.
type Kind = (&'static str, &'static [(&'static str, fn() -> Input)]);

const KINDS: [Kind; 6] = [
    (
        "CRC: long ones",
        &[
            ("as the largest body", || Input::Bytes(bytes(MOST))),
            ("above a megabyte", || Input::Bytes(bytes(1_234_567))),
        ],
    ),
    (
        "reader: long ones",
        &[
            ("V 1, the largest body", || front(New, 1, MOST)),
            ("new layout, the largest body", || front(New, 2, MOST)),
            ("old layout, the largest body", || front(Old, 2, MOST)),
            ("V 1, one byte more", || front(Old, 1, MOST + 1)),
            ("new layout, one byte more", || front(New, 2, MOST + 1)),
            ("old layout, one byte more", || front(Old, 2, MOST + 1)),
            ("the longest section", || read_section(LONGEST)),
            ("a section of 70,000 bytes", || read_section(70_000)),
            ("8,191 entries", read_entries),
            ("8,192 entries, the largest size", || read_too_many(65_535)),
            ("8,192 entries, their size in 16 bits", || read_too_many(2)),
            ("the largest body and a message", followed),
            ("the largest body without its last byte", cut_short),
            ("the largest body with its last byte changed", changed),
            ("65,534 children", || message_of(children(65_534))),
            ("65,535 children", || message_of(children(65_535))),
            ("65,534 children, not clean", || message_of(unclean())),
            ("the first captured stream", || captured(0)),
            ("the second captured stream", || captured(1)),
        ],
    ),
    (
        "contents: long ones",
        &[
            ("65,534 children", || bind(children(65_534))),
            ("65,535 children", || bind(children(65_535))),
            ("65,534 children, not clean", || bind(unclean())),
            ("a long child", || bind(long_child(0))),
            ("a long child with a wrong pad", || bind(long_child(1))),
            ("an image", || image(MORE)),
            ("an image without its last pixel", || image(MORE - 1)),
            ("a long TRANSFORM", || content(b"TRANSFORM", bytes(MORE))),
            ("of no type with a rule", || content(b"STRING", bytes(MORE))),
        ],
    ),
    (
        "writer: long ones",
        &[
            ("V 1, the largest body", || content_in(1, MOST)),
            ("V 1, one byte more", || content_in(1, MOST + 1)),
            ("V 2, the largest body", || content_in(2, MOST - 12)),
            ("V 2, one byte more", || content_in(2, MOST - 11)),
            ("V 1, a content of 20,000,000", || content_in(1, MORE)),
            ("V 2, a content of 20,000,000", || content_in(2, MORE)),
            ("V 1, metadata of 20,000,000", || metadata_in(1)),
            ("V 2, metadata of 20,000,000", || metadata_in(2)),
            ("V 1, 20,000,000 further bytes", || further_in(1)),
            ("V 2, 20,000,000 further bytes", || further_in(2)),
            ("new layout, the longest section", || {
                section_in(New, LONGEST)
            }),
            ("old layout, the longest section", || {
                section_in(Old, LONGEST)
            }),
            ("new layout, a section one byte longer", || {
                section_in(New, LONGEST + 1)
            }),
            ("new layout, a section of 70,000 bytes", || {
                section_in(New, 70_000)
            }),
            ("old layout, a section of 70,000 bytes", || {
                section_in(Old, 70_000)
            }),
            ("65,534 children, not clean", || {
                written(Sample::plain(b"BIND", &unclean()))
            }),
            ("three levels, not clean", || {
                written(Sample::plain(b"BIND", &bundles::nest(2, &unclean())))
            }),
            ("new layout, 8,191 entries", || entries_in(New, 8_191)),
            ("new layout, 8,192 entries", || entries_in(New, 8_192)),
            ("old layout, 7,281 entries", || entries_in(Old, 7_281)),
            ("old layout, 7,282 entries", || entries_in(Old, 7_282)),
        ],
    ),
    (
        "panel: long ones",
        &[("a message and bytes left over", left_over)],
    ),
    (
        "feed: long ones",
        &[
            ("V 1, the largest body", || pushed(New, 1, 58 + MOST)),
            ("V 1, a byte too many", || pushed(Old, 1, 57 + MOST)),
            ("V 1, passed over", || pushed(New, 1, 58)),
            ("new layout, the largest body", || pushed(New, 2, 58 + MOST)),
            ("old layout, the largest body", || pushed(Old, 2, 58 + MOST)),
        ],
    ),
];

/// One of them, made only when it is asked for.
pub struct Long {
    pub kind: &'static str,
    pub name: &'static str,
    pub make: fn() -> Input,
}

pub fn inputs() -> Vec<Long> {
    let of_kind = |(kind, inputs): Kind| {
        let inputs = inputs.iter();
        inputs.map(move |&(name, make)| Long { kind, name, make })
    };
    KINDS.into_iter().flat_map(of_kind).collect()
}

/// The same for the same length.
fn bytes(length: usize) -> Vec<u8> {
    Random::new(length as u64).bytes(length)
}

fn front(layout: Layout, version: u16, body: usize) -> Input {
    Input::Front(layout, stream(layout, version, body))
}

/// An opaque message whose body has so many bytes.
fn stream(layout: Layout, version: u16, body: usize) -> Vec<u8> {
    let mut sample = Sample {
        layout,
        version,
        ..Sample::plain(b"STRING", b"")
    };
    if version == 2 {
        sample.further = vec![1, 2, 3];
        sample.metadata = metadata::section(&[(b"Key", b"value")]);
    }
    let around = Fields::of(&sample).bytes().len() - 58;
    sample.content = bytes(body - around);
    encoded(&sample)
}

/// The bytes of a sample. Its CRC is the proved library's, as the reference takes long over 16 MiB:
/// if it were wrong, the reference would refuse the message, which shows as a difference.
fn encoded(sample: &Sample) -> Vec<u8> {
    let mut fields = Fields::of(sample);
    fields.crc = Some(0);
    let mut stream = fields.bytes();
    mend_with(crc64, &mut stream);
    stream
}

fn followed() -> Input {
    let last = Sample::extended(New).bytes();
    Input::Stream(New, [stream(New, 2, MOST), last].concat())
}

fn cut_short() -> Input {
    let mut stream = stream(New, 1, MOST);
    stream.pop();
    Input::Front(New, stream)
}

fn changed() -> Input {
    let mut stream = stream(New, 1, MOST);
    *stream.last_mut().expect("a last byte") ^= 1;
    Input::Front(New, stream)
}

fn captured(number: usize) -> Input {
    Input::Stream(New, streams::CAPTURES[number].to_vec())
}

/// A section of one entry, of so many bytes in all.
fn section(length: usize) -> Vec<u8> {
    metadata::section(&[(b"k", &bytes(length - 11))])
}

/// So many entries of one byte each.
fn entries(count: usize) -> Vec<u8> {
    metadata::section(&vec![(&b"a"[..], &b""[..]); count])
}

/// A message of V 2 that is all metadata.
fn all_metadata(layout: Layout, metadata: Vec<u8>) -> Sample {
    Sample {
        layout,
        version: 2,
        id: 9,
        metadata,
        ..Sample::plain(b"STRING", b"")
    }
}

fn read_section(length: usize) -> Input {
    Input::Front(New, encoded(&all_metadata(New, section(length))))
}

fn read_entries() -> Input {
    Input::Front(New, encoded(&all_metadata(New, entries(8_191))))
}

/// With this METADATA_HEADER_SIZE, which cannot be right.
fn read_too_many(index_size: u16) -> Input {
    let sample = all_metadata(New, entries(8_192));
    let data_size = sample.metadata.len() - usize::from(index_size);
    let mut fields = Fields::of(&sample);
    fields.index_size = index_size;
    fields.data_size = u32::try_from(data_size).expect("a section below the limit");
    Input::Front(New, fields.bytes())
}

/// A BIND of so many children without type, name or bytes. Of 65,535 the table does not fit.
fn children(count: u16) -> Vec<u8> {
    if count < u16::MAX {
        return Patched::children(count).content();
    }
    let table_at = 2 + 20 * u32::from(count);
    let patches = [(0, count), (table_at, u16::MAX)];
    let length = table_at + 2 + u32::from(u16::MAX);
    Patched::new(length, &patches).content()
}

/// Of 65,534 with the last byte of the last CTYPE set.
fn unclean() -> Vec<u8> {
    let from_end = 65_546;
    Patched::children(65_534).patch(from_end, 1).content()
}

fn message_of(bind: Vec<u8>) -> Input {
    Input::Front(New, encoded(&Sample::plain(b"BIND", &bind)))
}

fn content(type_text: &[u8], content: Vec<u8>) -> Input {
    let type_text = type_text.to_vec();
    Input::Content { type_text, content }
}

fn bind(bytes: Vec<u8>) -> Input {
    content(b"BIND", bytes)
}

/// Four levels around a child of more bytes than a message holds, its pad being this.
fn long_child(pad: u8) -> Vec<u8> {
    let data = bytes(MORE + 1);
    let mut inner = bundles::bundle(&[bundles::part(b"STRING", b"A", &data)]);
    *inner.last_mut().expect("the pad") = pad;
    bundles::nest(3, &inner)
}

/// An image of 20,000,000 pixels of one byte, of which so many are there.
fn image(pixels: usize) -> Input {
    let header = Header {
        components: 1,
        scalar_type: 2,
        size: [5000, 4000, 1],
        part_offset: [0; 3],
        part_size: [5000, 4000, 1],
        ..images::p9().header
    };
    content(b"IMAGE", [header.encode(), bytes(pixels)].concat())
}

fn opaque(version: u16) -> Sample {
    Sample {
        version,
        ..Sample::plain(b"STRING", b"content")
    }
}

/// Into a room that is enough.
fn written(sample: Sample) -> Input {
    let sections = [&sample.further, &sample.content, &sample.metadata];
    let room = 70 + sections.iter().map(|section| section.len()).sum::<usize>();
    Input::Message {
        sample,
        room,
        first: 7,
    }
}

fn content_in(version: u16, length: usize) -> Input {
    written(opaque(version).with(|sample| sample.content = bytes(length)))
}

fn metadata_in(version: u16) -> Input {
    written(opaque(version).with(|sample| sample.metadata = vec![0; MORE]))
}

fn further_in(version: u16) -> Input {
    written(opaque(version).with(|sample| sample.further = vec![0; MORE]))
}

fn section_in(layout: Layout, length: usize) -> Input {
    written(all_metadata(layout, section(length)))
}

fn entries_in(layout: Layout, count: usize) -> Input {
    written(all_metadata(layout, entries(count)))
}

/// A message for a tile, and more bytes after it than a body has.
fn left_over() -> Input {
    let bytes = [calls::arm(8), bytes(MORE)].concat();
    Input::Script {
        script: calls::after_start(&[calls::send(1300, &bytes)], 1300),
        places: vec![2, 3, 4],
        tiles: vec![0, 1],
    }
}

/// A message with the largest body and a short one, in a few fragments.
fn pushed(layout: Layout, version: u16, room: usize) -> Input {
    let last = Sample::extended(layout).bytes();
    let stream = [stream(layout, version, MOST), last].concat();
    let (first, rest) = stream.split_at(1_000_000);
    let (middle, last) = rest.split_at(MOST - 1_000_000 + 57);
    Input::Feed(Pushes::new(layout, room, 7, &[first, &[], middle, last]))
}
