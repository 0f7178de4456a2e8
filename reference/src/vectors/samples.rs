//! Sample messages: sound ones, ones by chance, and ones of which a field is wrong.

use super::{metadata, trees};
use crate::crc::crc;
use crate::message::body::{Body, Layout};
use crate::message::Message;
use crate::random::Random;
use crate::text;

/// What a message says, whether it can be sent or not.
#[derive(Clone)]
pub struct Sample {
    /// The layout of its bytes.
    pub layout: Layout,
    pub version: u16,
    pub time_stamp: u64,
    pub id: u32,
    pub type_text: Vec<u8>,
    pub device_name: Vec<u8>,
    pub further: Vec<u8>,
    pub content: Vec<u8>,
    pub metadata: Vec<u8>,
}

impl Sample {
    /// A POSITION with something in every section.
    pub fn extended(layout: Layout) -> Self {
        Sample {
            layout,
            version: 2,
            time_stamp: 0x0102_0304_8000_0001,
            id: 0xA1B2_C3D4,
            further: vec![1, 2, 255],
            metadata: metadata::section(&[(b"A", b"one"), (b"Key", b"")]),
            ..Sample::plain(b"POSITION", &[9; 12])
        }
    }

    /// A message that is all content, which is the same in both layouts.
    pub fn plain(type_text: &[u8], content: &[u8]) -> Self {
        Sample {
            version: 1,
            type_text: type_text.to_vec(),
            device_name: b"Arm".to_vec(),
            content: content.to_vec(),
            layout: Layout::New,
            time_stamp: 0,
            id: 0,
            further: vec![],
            metadata: vec![],
        }
    }

    /// One of the types of a BIND's children, sections of a few bytes each, in one of the layouts.
    pub fn by_chance(random: &mut Random) -> Self {
        let child = trees::child(random);
        let names: [&[u8]; 4] = [b"", b"Arm", b"\x01\x7F", b"A name of 20 bytes!!"];
        let content = child.content.encode();
        let plain = Sample {
            time_stamp: random.word(),
            device_name: random.pick(&names).to_vec(),
            ..Sample::plain(&child.type_text, &content)
        };
        if random.below(3) == 0 {
            return plain;
        }
        let further_length = random.pick(&[0, 0, 1, 4, 9]);
        Sample {
            layout: random.pick(&Layout::BOTH),
            version: 2,
            id: random.u32(),
            further: random.bytes(further_length),
            metadata: metadata::by_chance(random),
            ..plain
        }
    }

    pub fn with(&self, change: impl FnOnce(&mut Sample)) -> Self {
        let mut sample = self.clone();
        change(&mut sample);
        sample
    }

    pub fn message(&self) -> Message<'_> {
        Message {
            version: self.version,
            time_stamp: self.time_stamp,
            type_text: &self.type_text,
            device_name: &self.device_name,
            body: Body {
                id: self.id,
                further: &self.further,
                content: &self.content,
                metadata: &self.metadata,
            },
        }
    }

    /// The bytes of the fields, sound or not as a message.
    pub fn bytes(&self) -> Vec<u8> {
        Fields::of(self).bytes()
    }
}

/// The fields of a message as sent, so that each can be made wrong.
#[derive(Clone)]
pub struct Fields {
    pub version: u16,
    pub type_field: [u8; 12],
    pub name_field: [u8; 20],
    pub time_stamp: u64,
    /// The true one where nothing is given, and so for the CRC.
    pub body_size: Option<u64>,
    pub crc: Option<u64>,
    pub layout: Layout,
    pub extended_size: u16,
    /// METADATA_HEADER_SIZE and METADATA_SIZE of the new layout.
    pub index_size: u16,
    pub data_size: u32,
    /// METADATA_SIZE and the reserved word of the old layout.
    pub metadata_size: u16,
    pub reserved: u32,
    pub id: u32,
    pub further: Vec<u8>,
    pub content: Vec<u8>,
    pub metadata: Vec<u8>,
}

impl Fields {
    pub fn of(sample: &Sample) -> Self {
        let size = |length: usize| u16::try_from(length).unwrap_or(u16::MAX);
        let metadata_length = sample.metadata.len();
        let index_size = size(metadata::index_size(&sample.metadata));
        let data_size = metadata_length - usize::from(index_size);
        Fields {
            version: sample.version,
            type_field: text::field(&sample.type_text).expect("a type"),
            name_field: text::field(&sample.device_name).expect("a device name"),
            time_stamp: sample.time_stamp,
            body_size: None,
            crc: None,
            layout: sample.layout,
            extended_size: size(12 + sample.further.len()),
            index_size,
            data_size: u32::try_from(data_size).expect("a section below the limit"),
            metadata_size: size(metadata_length),
            reserved: 0,
            id: sample.id,
            further: sample.further.clone(),
            content: sample.content.clone(),
            metadata: sample.metadata.clone(),
        }
    }

    /// The content alone with V 1, all sections with every other one.
    fn body(&self) -> Vec<u8> {
        if self.version == 1 {
            return self.content.clone();
        }
        let (first_size, words) = match self.layout {
            Layout::New => (self.index_size, [self.data_size, self.id]),
            Layout::Old => (self.metadata_size, [self.id, self.reserved]),
        };
        let sizes = [self.extended_size, first_size].map(u16::to_be_bytes);
        let front = [sizes.concat(), words.map(u32::to_be_bytes).concat()].concat();
        [&front[..], &self.further, &self.content, &self.metadata].concat()
    }

    pub fn bytes(&self) -> Vec<u8> {
        let body = self.body();
        let numbers = [
            self.time_stamp,
            self.body_size.unwrap_or(body.len() as u64),
            self.crc.unwrap_or_else(|| crc(&body)),
        ];
        [
            &self.version.to_be_bytes()[..],
            &self.type_field,
            &self.name_field,
            &numbers.map(u64::to_be_bytes).concat(),
            &body,
        ]
        .concat()
    }
}

/// The sample after each of some changes of its fields.
pub fn with_changes<const N: usize>(
    sample: &Sample,
    changes: [fn(&mut Fields); N],
) -> Vec<Vec<u8>> {
    let streams = changes.map(|change| {
        let mut fields = Fields::of(sample);
        change(&mut fields);
        fields.bytes()
    });
    streams.to_vec()
}

/// The stream with the byte at a place made another.
pub fn set(stream: &[u8], place: usize, value: u8) -> Vec<u8> {
    let mut stream = stream.to_vec();
    stream[place] = value;
    stream
}

/// The stream with the CRC of all that follows the header.
pub fn mended(mut stream: Vec<u8>) -> Vec<u8> {
    let crc = crc(&stream[58..]).to_be_bytes();
    stream[50..58].copy_from_slice(&crc);
    stream
}

#[cfg(test)]
mod tests {
    use super::{mended, Layout, Sample};
    use crate::fault::{number, Fault};
    use crate::message::read;
    use crate::random::Random;

    #[test]
    fn the_fields_are_those_of_the_message() {
        let [new, old] = Layout::BOTH.map(Sample::extended);
        for sample in [new, old, Sample::plain(b"STATUS", b"content")] {
            let bytes = sample.bytes();
            assert_eq!(sample.message().encode(sample.layout), Ok(bytes.clone()));
            assert_eq!(mended(bytes.clone()), bytes);
            assert_eq!(read(sample.layout, &bytes).message, Ok(sample.message()));
        }
    }

    #[test]
    fn a_message_by_chance_is_answered_alike_by_reader_and_writer() {
        let mut random = Random::new(7);
        let mut seen = Vec::new();
        for _ in 0..1500 {
            let sample = Sample::by_chance(&mut random);
            let written = sample.message().encode(sample.layout);
            seen.push((sample.layout, number(&written)));
            assert_eq!(
                read(sample.layout, &sample.bytes()).message,
                written.map(|_| sample.message())
            );
        }
        let contents = [Fault::Length, Fault::Image, Fault::Bind, Fault::Depth];
        for layout in Layout::BOTH {
            let answered = |number| seen.contains(&(layout, number));
            assert!(answered(0));
            assert!(contents.iter().all(|&fault| answered(fault as u8)));
        }
    }
}
