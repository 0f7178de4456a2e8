//! Whole messages: read from the front of a stream, and turned into bytes.

pub mod body;
pub mod header;
pub mod metadata;
pub mod time_stamp;

use crate::content;
use crate::crc::crc;
use crate::fault::{number, smallest, Fault};
use body::{Body, Layout};
use header::Header;

/// All that a message says; sizes and CRC follow from it.
#[derive(Clone, Copy, Debug, Default, PartialEq, Eq)]
pub struct Message<'a> {
    pub version: u16,
    pub time_stamp: u64,
    pub type_text: &'a [u8],
    pub device_name: &'a [u8],
    pub body: Body<'a>,
}

/// What is answered of the front of a stream.
#[derive(Debug, PartialEq, Eq)]
pub struct Reading<'a> {
    /// The length of the message, or 0 with the numbers 1, 2 and 3 (rule 5.3).
    pub step: usize,
    pub message: Result<Message<'a>, Fault>,
    /// Whether only zeros follow each text of an accepted message, those of its content too.
    pub clean: bool,
}

/// As many numbers as a reading has.
pub const NUMBERS: usize = 14;

pub fn read(layout: Layout, stream: &[u8]) -> Reading<'_> {
    match cut(stream) {
        Ok((header, bytes)) => {
            let message = open(layout, &header, bytes);
            let is_clean =
                |message: Message| header.is_clean(stream) && message.has_clean_content();
            Reading {
                step: header::LENGTH + bytes.len(),
                message,
                clean: message.is_ok_and(is_clean),
            }
        }
        Err(fault) => Reading {
            step: 0,
            message: Err(fault),
            clean: false,
        },
    }
}

/// The header at the front of a stream, and the bytes of the body that it announces.
fn cut(stream: &[u8]) -> Result<(Header<'_>, &[u8]), Fault> {
    let header = Header::parse(stream)?;
    let rest = &stream[header::LENGTH..];
    let size = usize::try_from(header.body_size).map_err(|_| Fault::Limit)?;
    let bytes = rest.get(..size).ok_or(Fault::Short)?;
    Ok((header, bytes))
}

/// The message of a header and its body. Every fault is looked for, and the smallest counts.
fn open<'a>(layout: Layout, header: &Header<'a>, bytes: &'a [u8]) -> Result<Message<'a>, Fault> {
    let body = Body::split(layout, header.version, bytes);
    let crc_fault = (crc(bytes) != header.crc).then_some(Fault::Crc);
    let section_fault = body.and_then(|body| body.fault(header.type_text).map_or(Ok(()), Err));
    match smallest([crc_fault, body.err(), section_fault.err()]) {
        Some(fault) => Err(fault),
        None => Ok(Message {
            version: header.version,
            time_stamp: header.time_stamp,
            type_text: header.type_text,
            device_name: header.device_name,
            body: body?,
        }),
    }
}

impl Message<'_> {
    /// The bytes of the message, with zeros after each text of its content. Every fault is looked
    /// for, and the smallest counts.
    pub fn encode(&self, layout: Layout) -> Result<Vec<u8>, Fault> {
        let content = content::cleaned(self.type_text, self.body.content);
        let content = content.as_deref().unwrap_or(self.body.content);
        let body = Body {
            content,
            ..self.body
        };
        let body = body.join(layout, self.version);
        let header = self.header(body.as_deref().unwrap_or_default()).encode();
        let faults = [
            header.as_ref().err().copied(),
            body.as_ref().err().copied(),
            self.body.fault(self.type_text),
        ];
        match smallest(faults) {
            Some(fault) => Err(fault),
            None => Ok([header?, body?].concat()),
        }
    }

    fn has_clean_content(&self) -> bool {
        content::is_clean(self.type_text, self.body.content)
    }

    fn header(&self, bytes: &[u8]) -> Header<'_> {
        Header {
            version: self.version,
            type_text: self.type_text,
            device_name: self.device_name,
            time_stamp: self.time_stamp,
            body_size: self.body.size(self.version),
            crc: crc(bytes),
        }
    }
}

impl Reading<'_> {
    /// Where the further bytes begin in the stream, then the content, then the metadata. They are
    /// the end of the message, in this order, so their places are counted from there.
    pub fn places(&self) -> [usize; 3] {
        let Ok(Message { body, .. }) = self.message else {
            return [0; 3];
        };
        let metadata = self.step - body.metadata.len();
        let content = metadata - body.content.len();
        [content - body.further.len(), content, metadata]
    }

    /// The answer's number and the step; the version, the lengths of the type and the device name,
    /// the time stamp, the id; the place and the length of each of the three parts; 1 where it is
    /// clean. All but the first two are 0 where the message is refused.
    pub fn numbers(&self) -> [u64; NUMBERS] {
        let [further_at, content_at, metadata_at] = self.places();
        let message = self.message.unwrap_or_default();
        let body = message.body;
        [
            number(&self.message).into(),
            self.step as u64,
            message.version.into(),
            message.type_text.len() as u64,
            message.device_name.len() as u64,
            message.time_stamp,
            body.id.into(),
            further_at as u64,
            body.further.len() as u64,
            content_at as u64,
            body.content.len() as u64,
            metadata_at as u64,
            body.metadata.len() as u64,
            self.clean.into(),
        ]
    }
}

#[cfg(test)]
mod tests {
    use super::body::Layout::{self, New, Old};
    use super::metadata::{self, Entry};
    use super::{read, Body, Message};
    use crate::fault::{number, Fault};
    use crate::vectors::case::from_digits;
    use crate::vectors::samples::mended;

    fn status() -> Message<'static> {
        Message {
            version: 2,
            type_text: b"GET_STATUS",
            device_name: b"Arm",
            ..Message::default()
        }
    }

    fn position() -> Message<'static> {
        Message {
            type_text: b"POSITION",
            time_stamp: 1 << 63,
            body: Body {
                id: 7,
                further: b"further",
                content: &[9; 12],
                metadata: &[0, 0],
            },
            ..status()
        }
    }

    /// In both layouts.
    fn refused(stream: &[u8]) -> Option<(Fault, usize)> {
        let [new, old] = Layout::BOTH.map(|layout| {
            let reading = read(layout, stream);
            assert_eq!(reading.clean, reading.message.is_ok());
            let fault = reading.message.err()?;
            Some((fault, reading.step))
        });
        assert_eq!(new, old);
        new
    }

    /// In both layouts.
    fn answer(message: &Message) -> u8 {
        let [new, old] = Layout::BOTH.map(|layout| number(&message.encode(layout)));
        assert_eq!(new, old);
        new
    }

    #[test]
    fn p4_57_bytes() {
        assert_eq!(refused(&[0; 57]), Some((Fault::Short, 0)));
    }

    #[test]
    fn p5_a_body_of_12_bytes() {
        for layout in Layout::BOTH {
            let stream = status().encode(layout).unwrap();
            assert_eq!(stream[58..], [0, 12, 0, 0, 0, 0, 0, 0, 0, 0, 0, 0]);
            let reading = read(layout, &stream);
            assert_eq!(reading.step, 70);
            assert_eq!(reading.places(), [70; 3]);
            assert_eq!(reading.message, Ok(status()));
        }
    }

    fn plain(content: &[u8]) -> Message<'_> {
        Message {
            version: 1,
            body: Body {
                content,
                ..Body::default()
            },
            ..status()
        }
    }

    #[test]
    fn p6_a_body_of_11_bytes() {
        let mut stream = plain(&[0; 11]).encode(New).unwrap();
        assert!(read(New, &stream).message.is_ok());
        stream[1] = 2;
        assert_eq!(refused(&stream), Some((Fault::Extended, 69)));
    }

    /// The stream of this body, given in hexadecimal with blanks.
    fn with_body(digits: &str) -> Vec<u8> {
        let mut stream = plain(&from_digits(digits)).encode(New).unwrap();
        stream[1] = 2;
        stream
    }

    const ENTRY: &str = "0001 0001 0003 00000001 6B76";

    /// Number, step and id of a body in a layout.
    fn answered(layout: Layout, digits: &str) -> [u64; 3] {
        let [number, step, _, _, _, _, id, ..] = read(layout, &with_body(digits)).numbers();
        [number, step, id]
    }

    #[test]
    fn bodies_of_12_bytes_in_both_layouts() {
        let cases = [
            ("000C 0000 00000000 00000007", [0, 70, 7], [6, 70, 0]),
            ("000C 0000 00000007 00000000", [6, 70, 0], [0, 70, 7]),
            ("000C 0000 00000000 00000000", [0, 70, 0], [0, 70, 0]),
            ("000C 0000 FFFFFFFF 00000009", [6, 70, 0], [6, 70, 0]),
            (
                "000C 0000 FFFFFFFF 00000000",
                [6, 70, 0],
                [0, 70, 4_294_967_295],
            ),
        ];
        for (digits, new, old) in cases {
            assert_eq!(answered(New, digits), new, "{digits}");
            assert_eq!(answered(Old, digits), old, "{digits}");
        }
    }

    #[test]
    fn crcs_of_the_first_three_bodies() {
        let crcs: [(&str, u64); 3] = [
            ("000C 0000 00000000 00000007", 0x26B2_DAF6_2FC5_2FD6),
            ("000C 0000 00000007 00000000", 0xAF57_64DE_BD3F_227F),
            ("000C 0000 00000000 00000000", 0xA890_9E8F_DBB9_98BC),
        ];
        for (digits, crc) in crcs {
            assert_eq!(with_body(digits)[50..58], crc.to_be_bytes());
        }
    }

    #[test]
    fn one_entry_in_the_new_layout() {
        let stream = with_body(&format!("000C 000A 00000002 00000009 {ENTRY}"));
        assert_eq!(stream[50..58], 0xB6BC_232B_61CA_0612_u64.to_be_bytes());
        let reading = read(New, &stream);
        assert_eq!((reading.step, reading.places()), (82, [70; 3]));
        let body = reading.message.unwrap().body;
        assert_eq!((body.id, body.metadata.len()), (9, 12));
        let found = metadata::find(body.metadata, b"k").unwrap();
        assert_eq!(found.entry.value, b"v");
        assert_eq!(read(Old, &stream).message, Err(Fault::Extended));
    }

    #[test]
    fn sizes_that_disagree_with_the_section() {
        let cases = [
            ("0008 00000004", 7),
            ("0000 0000000C", 7),
            ("000C 00000000", 7),
            ("000A 00000003", 6),
        ];
        for (sizes, number) in cases {
            let digits = format!("000C {sizes} 00000009 {ENTRY}");
            assert_eq!(answered(New, &digits), [number, 82, 0], "{digits}");
            assert_eq!(answered(Old, &digits), [6, 82, 0], "{digits}");
        }
    }

    #[test]
    fn sections_of_two_bytes_and_of_one() {
        let cases = [
            ("000C 0002 00000000 00000009 0000", [0, 72, 9]),
            ("000C 0002 00000000 00000009 0001", [7, 72, 0]),
            ("000C 0000 00000002 00000009 0000", [7, 72, 0]),
            ("000C 0001 00000001 00000009 0000", [7, 72, 0]),
            ("000C 0001 00000000 00000009 00", [7, 71, 0]),
            ("000C 0000 00000001 00000009 00", [7, 71, 0]),
        ];
        for (digits, new) in cases {
            assert_eq!(answered(New, digits), new, "{digits}");
            let old = [6, new[1], 0];
            assert_eq!(answered(Old, digits), old, "{digits}");
        }
    }

    /// No METADATA_HEADER_SIZE can agree with them.
    #[test]
    fn more_than_8191_entries_are_read_as_a_disagreement() {
        let digits = format!("000C FFFF 00000001 00000009 2000 {}", "00".repeat(65_534));
        assert_eq!(answered(New, &digits), [7, 58 + 12 + 65_536, 0]);
    }

    #[test]
    fn a_message_is_read_as_it_is_written() {
        for layout in Layout::BOTH {
            let mut stream = position().encode(layout).unwrap();
            let length = stream.len();
            stream.extend(b"the next message");
            let reading = read(layout, &stream);
            assert_eq!(reading.step, length);
            assert_eq!(reading.places(), [70, 77, 89]);
            assert_eq!(reading.message, Ok(position()));
        }
    }

    #[test]
    fn the_layouts_differ_by_the_id_and_by_keys_and_values() {
        let entry = b"\0\x01\0\x01\0\x03\0\0\0\0k";
        let same = |message: Message| message.encode(New) == message.encode(Old);
        let mut message = position();
        assert!(!same(message));
        message.body.id = 0;
        assert!(same(message));
        message.body.metadata = entry;
        assert!(!same(message));
        message.body.metadata = &[];
        assert!(same(message));
    }

    #[test]
    fn a_section_of_no_entries_is_another_message() {
        let mut without = position();
        without.body.metadata = &[];
        for layout in Layout::BOTH {
            let bytes = without.encode(layout);
            assert_ne!(bytes, position().encode(layout));
            assert_eq!(read(layout, &bytes.unwrap()).message, Ok(without));
        }
    }

    #[test]
    fn the_version_comes_after_the_body_and_before_the_crc() {
        let mut stream = position().encode(Old).unwrap();
        let length = stream.len();
        stream[1] = 3;
        stream[57] ^= 1;
        assert_eq!(refused(&stream), Some((Fault::Version, length)));
        assert_eq!(refused(&stream[..length - 1]), Some((Fault::Short, 0)));
        stream[1] = 2;
        assert_eq!(refused(&stream), Some((Fault::Crc, length)));
    }

    /// The section's size fields are wrong, then also those of the body, then the CRC.
    #[test]
    fn the_crc_comes_before_the_sizes_and_all_sizes_before_those_of_the_metadata() {
        let mut stream = position().encode(New).unwrap();
        let length = stream.len();
        stream[61] = 0;
        let mut refused = |place: usize, value, mend: bool| {
            stream[place] = value;
            if mend {
                stream = mended(stream.clone());
            }
            let reading = read(New, &stream);
            assert_eq!(reading.step, length);
            reading.message.unwrap_err()
        };
        assert_eq!(refused(65, 2, true), Fault::Metadata);
        assert_eq!(refused(62, 1, true), Fault::Extended);
        assert_eq!(refused(69, 9, false), Fault::Crc);
    }

    #[test]
    fn the_smallest_fault_of_a_message_counts() {
        let bad = Message {
            version: 7,
            type_text: b"TRANSFORM\x80",
            body: Body {
                metadata: &[0],
                ..position().body
            },
            ..position()
        };
        assert_eq!(answer(&bad), 2);
        let type_text = b"TRANSFORM";
        let bad = Message { type_text, ..bad };
        assert_eq!(answer(&bad), 4);
        let plain = Message { version: 1, ..bad };
        assert_eq!(answer(&plain), 6);
        let mut extended = Message { version: 2, ..bad };
        assert_eq!(answer(&extended), 7);
        extended.body.metadata = &[];
        assert_eq!(answer(&extended), 8);
    }

    #[test]
    fn the_limit_counts_the_sections_only_where_they_are_sent() {
        let bytes = vec![0; 16_777_217];
        let content = |length, version| Message {
            version,
            body: Body {
                content: &bytes[..length],
                ..Body::default()
            },
            ..status()
        };
        assert!(content(16_777_216, 1).encode(New).is_ok());
        assert_eq!(answer(&content(16_777_217, 7)), 3);
        assert_eq!(answer(&content(16_777_205, 2)), 3);
        let mut metadata = content(0, 1);
        metadata.body.metadata = &bytes;
        assert_eq!(answer(&metadata), 6);
        metadata.version = 2;
        assert_eq!(answer(&metadata), 3);
    }

    fn with_section(version: u16, metadata: &[u8]) -> Message<'_> {
        Message {
            version,
            body: Body {
                metadata,
                ..Body::default()
            },
            ..status()
        }
    }

    fn answers(version: u16, section: &[u8]) -> [u8; 2] {
        let message = with_section(version, section);
        Layout::BOTH.map(|layout| number(&message.encode(layout)))
    }

    #[test]
    fn sections_that_cannot_be_written() {
        assert_eq!(answers(2, b"\x20\0"), [6, 7]);
        assert_eq!(answers(2, b"\x1F\xFF"), [7, 7]);
        assert_eq!(answers(2, b"\xFF"), [7, 7]);
        assert_eq!(answers(1, b"\0\0"), [6, 6]);
        assert_eq!(answers(1, b"\x20\0"), [6, 6]);
    }

    /// The message of a section is read in the new layout as it is written, with these two sizes.
    fn assert_written(section: &[u8], index_size: u16, data_size: u32) {
        let message = with_section(2, section);
        let stream = message.encode(New).unwrap();
        let sizes = [&index_size.to_be_bytes()[..], &data_size.to_be_bytes()];
        assert_eq!(stream[60..66], sizes.concat());
        assert_eq!(read(New, &stream).message, Ok(message));
    }

    #[test]
    fn a_section_of_70_000_bytes() {
        let entry = Entry {
            key: b"k",
            encoding: 3,
            value: &[7; 69_989],
        };
        let section = metadata::join(&[entry]).unwrap();
        assert_eq!(section.len(), 70_000);
        assert_written(&section, 0x000A, 0x0001_1166);
        assert_eq!(answers(2, &section), [0, 6]);
    }

    #[test]
    fn a_section_of_8_191_entries() {
        let entry = Entry {
            key: b"a",
            encoding: 3,
            value: b"",
        };
        let section = metadata::join(&[entry; 8_191]).unwrap();
        assert_eq!(section.len(), 73_721);
        assert_written(&section, 0xFFFA, 0x0000_1FFF);
        assert_eq!(answers(2, &section), [0, 6]);
        let more = metadata::join(&[entry; 8_192]).unwrap();
        assert_eq!(answers(2, &more), [6, 6]);
    }
}
