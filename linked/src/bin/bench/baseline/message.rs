//! Whole messages: the reader of the front of a byte stream, and the writer.

use super::cleaning::put_clean;
use super::content::content_check;
use super::crc64::crc64;
use super::fields::{self, be16, be32, part, put, put16, put32, Checked};
use super::header::{self, HeaderFields, HeaderRead};
use super::metadata::{count, index_size, metadata_fault};
use reference::message::body::{Body, Layout};
use reference::message::Message;

#[derive(Default)]
pub struct Answer {
    pub number: u8,
    pub step: usize,
    pub version: u16,
    pub type_len: usize,
    pub name_len: usize,
    pub time_stamp: u64,
    pub id: u32,
    pub further_at: usize,
    pub further_len: usize,
    pub content_at: usize,
    pub content_len: usize,
    pub metadata_at: usize,
    pub metadata_len: usize,
    pub clean: bool,
}

// ---- the body

#[derive(Clone, Copy)]
struct Places {
    id: u32,
    further_at: usize,
    further_len: usize,
    content_at: usize,
    content_len: usize,
    metadata_at: usize,
    metadata_len: usize,
}

fn section_size(layout: Layout, body: &[u8]) -> usize {
    let size = usize::from(be16(body, 2));
    match layout {
        Layout::New => size + be32(body, 4) as usize,
        Layout::Old => size,
    }
}

fn id_of(layout: Layout, body: &[u8]) -> u32 {
    match layout {
        Layout::New => be32(body, 8),
        Layout::Old => be32(body, 4),
    }
}

fn reserved_ok(layout: Layout, body: &[u8]) -> bool {
    match layout {
        Layout::New => true,
        Layout::Old => be32(body, 8) == 0,
    }
}

fn is_extended(layout: Layout, body: &[u8], size: usize, metadata: usize) -> bool {
    if body.len() < 12 || size < 12 || !reserved_ok(layout, body) {
        return false;
    }
    size + metadata <= body.len()
}

fn body_fault(layout: Layout, version: u16, body: &[u8], places: Places) -> u8 {
    if version != 2 || is_extended(layout, body, places.content_at, places.metadata_len) {
        0
    } else {
        6
    }
}

fn index_fault(layout: Layout, version: u16, body: &[u8], metadata: &[u8]) -> u8 {
    if version != 2 {
        return 0;
    }
    match layout {
        Layout::New if usize::from(be16(body, 2)) != index_size(metadata) => 7,
        _ => 0,
    }
}

fn sections(layout: Layout, version: u16, body: &[u8]) -> Places {
    let n = body.len();
    if version != 2 {
        return Places {
            id: 0,
            further_at: 0,
            further_len: 0,
            content_at: 0,
            content_len: n,
            metadata_at: n,
            metadata_len: 0,
        };
    }
    let size = usize::from(be16(body, 0));
    let metadata_len = section_size(layout, body);
    Places {
        id: id_of(layout, body),
        further_at: 12,
        further_len: size.saturating_sub(12),
        content_at: size,
        content_len: n.saturating_sub(size + metadata_len),
        metadata_at: n.saturating_sub(metadata_len),
        metadata_len,
    }
}

// ---- the reader

fn refusal(number: u8, step: usize) -> Answer {
    Answer {
        number,
        step,
        ..Answer::default()
    }
}

fn version_fault(version: u16) -> u8 {
    match version {
        1 | 2 => 0,
        _ => 4,
    }
}

fn contents_check(type_text: &[u8], content: &[u8], metadata: &[u8]) -> Checked {
    let fault = metadata_fault(metadata);
    if fault != 0 {
        return fields::refusal(fault);
    }
    content_check(type_text, content)
}

fn body_check(
    layout: Layout,
    version: u16,
    crc: u64,
    type_text: &[u8],
    body: &[u8],
    places: Places,
) -> Checked {
    let fault = version_fault(version);
    if fault != 0 {
        return fields::refusal(fault);
    }
    if crc64(body) != crc {
        return fields::refusal(5);
    }
    let fault = body_fault(layout, version, body, places);
    if fault != 0 {
        return fields::refusal(fault);
    }
    let metadata = part(body, places.metadata_at, places.metadata_len);
    let fault = index_fault(layout, version, body, metadata);
    if fault != 0 {
        return fields::refusal(fault);
    }
    let content = part(body, places.content_at, places.content_len);
    contents_check(type_text, content, metadata)
}

fn accept(header: HeaderRead, places: Places, clean: bool) -> Answer {
    Answer {
        number: 0,
        step: 58 + header.body_size,
        version: header.version,
        type_len: header.type_len,
        name_len: header.name_len,
        time_stamp: header.time_stamp,
        id: places.id,
        further_at: 58 + places.further_at,
        further_len: places.further_len,
        content_at: 58 + places.content_at,
        content_len: places.content_len,
        metadata_at: 58 + places.metadata_at,
        metadata_len: places.metadata_len,
        clean: header.clean && clean,
    }
}

pub fn read(layout: Layout, stream: &[u8]) -> Answer {
    let header = header::read_header(stream);
    if header.number != 0 {
        return refusal(header.number, 0);
    }
    let size = header.body_size;
    if stream.len() < 58 + size {
        return refusal(1, 0);
    }
    let body = part(stream, 58, size);
    let places = sections(layout, header.version, body);
    let type_text = part(stream, 2, header.type_len);
    let checked = body_check(layout, header.version, header.crc, type_text, body, places);
    if checked.number != 0 {
        return refusal(checked.number, 58 + size);
    }
    accept(header, places, checked.clean)
}

impl Answer {
    pub fn type_text<'a>(&self, stream: &'a [u8]) -> &'a [u8] {
        part(stream, 2, self.type_len)
    }

    pub fn device_name<'a>(&self, stream: &'a [u8]) -> &'a [u8] {
        part(stream, 14, self.name_len)
    }

    pub fn content<'a>(&self, stream: &'a [u8]) -> &'a [u8] {
        part(stream, self.content_at, self.content_len)
    }
}

// ---- the writer. It is given a message as the reference implementation holds one, but calls none
// of that one's code.

fn body_len(version: u16, body: &Body) -> usize {
    if version != 2 {
        return body.content.len();
    }
    12 + body.further.len() + body.content.len() + body.metadata.len()
}

fn within_limit(version: u16, body: &Body) -> bool {
    const LIMIT: usize = 16_777_216;
    if LIMIT < body.content.len() {
        return false;
    }
    if version != 2 {
        return true;
    }
    body.further.len() <= LIMIT && body.metadata.len() <= LIMIT && body_len(version, body) <= LIMIT
}

fn section_fits(layout: Layout, metadata: &[u8]) -> bool {
    match layout {
        Layout::New => count(metadata) <= 8_191,
        Layout::Old => metadata.len() <= 65_535,
    }
}

fn is_fit(layout: Layout, version: u16, body: &Body) -> bool {
    if version == 2 {
        return body.further.len() <= 65_523 && section_fits(layout, body.metadata);
    }
    body.id == 0 && body.further.is_empty() && body.metadata.is_empty()
}

fn sections_checks(layout: Layout, version: u16, type_text: &[u8], body: &Body) -> u8 {
    let fault = version_fault(version);
    if fault != 0 {
        return fault;
    }
    if !is_fit(layout, version, body) {
        return 6;
    }
    contents_check(type_text, body.content, body.metadata).number
}

fn write_checks(layout: Layout, message: &Message) -> u8 {
    let fault = header::names_fault(message.type_text, message.device_name);
    if fault != 0 {
        return fault;
    }
    if !within_limit(message.version, &message.body) {
        return 3;
    }
    sections_checks(layout, message.version, message.type_text, &message.body)
}

fn put_front(layout: Layout, body: &Body, out: &mut [u8]) {
    let len = body.metadata.len();
    let index = index_size(body.metadata);
    let (size, words) = match layout {
        Layout::New => (index, [(len - index) as u32, body.id]),
        Layout::Old => (len, [body.id, 0]),
    };
    put16(size as u16, 2, out);
    put32(words[0], 4, out);
    put32(words[1], 8, out);
}

fn put_extended(layout: Layout, type_text: &[u8], body: &Body, out: &mut [u8]) {
    let content_at = 12 + body.further.len();
    put16(content_at as u16, 0, out);
    put_front(layout, body, out);
    put(body.further, 12, out);
    put_clean(type_text, body.content, content_at, out);
    put(body.metadata, content_at + body.content.len(), out);
}

fn put_body(layout: Layout, message: &Message, out: &mut [u8]) {
    let Message {
        type_text, body, ..
    } = message;
    if message.version == 2 {
        put_extended(layout, type_text, body, out);
    } else {
        put_clean(type_text, body.content, 0, out);
    }
}

fn put_message(layout: Layout, message: &Message, size: usize, out: &mut [u8]) {
    let room = &mut out[58..58 + size];
    put_body(layout, message, room);
    let header = HeaderFields {
        version: message.version,
        time_stamp: message.time_stamp,
        body_size: size,
        crc: crc64(&out[58..58 + size]),
    };
    // The checks that the header's writer makes again have passed.
    let _ = header::write_header(&header, message.type_text, message.device_name, out);
}

/// How many bytes were written, or the number of the refusal.
pub fn write(layout: Layout, message: &Message, out: &mut [u8]) -> Result<usize, u8> {
    let fault = write_checks(layout, message);
    if fault != 0 {
        return Err(fault);
    }
    let size = body_len(message.version, &message.body);
    if out.len() < 58 + size {
        return Err(20);
    }
    put_message(layout, message, size, out);
    Ok(58 + size)
}
