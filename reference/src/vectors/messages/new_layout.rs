//! Messages whose sizes are those of the new layout: right ones, such as break its rule, and long
//! sections.

use super::with_metadata;
use crate::message::body::Layout;
use crate::vectors::metadata;
use crate::vectors::samples::{with_changes, Fields, Sample};

pub fn streams() -> Vec<Vec<u8>> {
    [rows(), single_sizes(), sizes(), ids(), orders()].concat()
}

/// METADATA_HEADER_SIZE, METADATA_SIZE and MSG_ID after an EXT_HEADER_SIZE of 12, and the rest of
/// the body.
type Row = (u16, u32, u32, &'static [u8]);

const ENTRY: &[u8] = b"\0\x01\0\x01\0\x03\0\0\0\x01kv";

const ROWS: [Row; 28] = [
    (0, 0, 7, b""),
    (0, 7, 0, b""),
    (0, 0, 0, b""),
    (10, 2, 9, ENTRY),
    (10, 2, 0, ENTRY),
    (10, 2, u32::MAX, ENTRY),
    (2, 10, 9, ENTRY),
    (8, 4, 9, ENTRY),
    (9, 3, 9, ENTRY),
    (11, 1, 9, ENTRY),
    (0, 12, 9, ENTRY),
    (12, 0, 9, ENTRY),
    (10, 1, 9, ENTRY),
    (10, 3, 9, ENTRY),
    (10, 0, 9, ENTRY.split_at(10).0),
    (0, 0, 9, ENTRY),
    (2, 0, 9, b"\0\0"),
    (2, 0, 9, b"\0\x01"),
    (2, 0, 9, b"\x20\0"),
    (0, 2, 9, b"\0\0"),
    (1, 1, 9, b"\0\0"),
    (2, 1, 9, b"\0\0\0"),
    (3, 0, 9, b"\0\0\0"),
    (1, 0, 9, b"\0"),
    (0, 1, 9, b"\0"),
    (2, 0, 9, b"\0"),
    (0, u32::MAX, 9, b""),
    (0, u32::MAX, 0, b""),
];

fn rows() -> Vec<Vec<u8>> {
    let status = Sample {
        version: 2,
        ..Sample::plain(b"GET_STATUS", b"")
    };
    let streams = ROWS.map(|(index_size, data_size, id, rest)| {
        let fields = Fields {
            index_size,
            data_size,
            id,
            metadata: rest.to_vec(),
            ..Fields::of(&status)
        };
        fields.bytes()
    });
    streams.to_vec()
}

/// The fields of a sample of 52 body bytes, whose three sizes are 15, 18 and 7.
fn extended() -> Fields {
    Fields::of(&Sample::extended(Layout::New))
}

const DATA_SIZES: [u32; 15] = [
    0,
    1,
    6,
    8,
    19,
    20,
    25,
    0x0107,
    0x0001_0007,
    0x0100_0007,
    0x8000_0007,
    0xFFFF_0007,
    0xFFFF_FFDF,
    0xFFFF_FFEE,
    0xFFFF_FFFF,
];

/// One of the three is another: close to the right one, and such that it is the right one or small
/// in fewer bits.
fn single_sizes() -> Vec<Vec<u8>> {
    let extended_sizes = [
        0, 11, 12, 13, 14, 16, 27, 28, 0x010F, 0x7FFF, 0x8000, 65_535,
    ];
    let of_extended = |extended_size| Fields {
        extended_size,
        ..extended()
    };
    let index_sizes = [
        0, 1, 2, 10, 17, 19, 26, 30, 31, 0x0112, 0x7FFF, 0x8000, 65_535,
    ];
    let of_index = |index_size| Fields {
        index_size,
        ..extended()
    };
    let of_data = |data_size| Fields {
        data_size,
        ..extended()
    };
    let fields = extended_sizes.iter().copied().map(of_extended);
    let fields = fields.chain(index_sizes.iter().copied().map(of_index));
    let fields = fields.chain(DATA_SIZES.iter().copied().map(of_data));
    fields.map(|fields| fields.bytes()).collect()
}

/// All three sizes.
const SIZES: [(u16, u16, u32); 29] = [
    // The section is as long as before.
    (15, 0, 25),
    (15, 1, 24),
    (15, 2, 23),
    (15, 10, 15),
    (15, 17, 8),
    (15, 19, 6),
    (15, 25, 0),
    // It is so in 16 bits, and in 32.
    (15, 65_535, 26),
    (15, 32_768, 32_793),
    (15, 65_535, 0xFFFF_001A),
    (15, 26, 0xFFFF_FFFF),
    // No section, and one that is 0 in 16 bits, and in 32.
    (15, 0, 0),
    (15, 65_535, 1),
    (15, 18, 0xFFFF_FFEE),
    // The three are 12 in 16 bits, and in 32.
    (65_523, 18, 7),
    (65_535, 13, 0),
    (12, 65_535, 1),
    (12, 0, 65_536),
    (15, 18, 0xFFFF_FFEB),
    (12, 65_535, 0xFFFF_0001),
    // The largest.
    (65_535, 65_535, 0xFFFF_FFFF),
    // Little or nothing is left for the content, or a byte too few.
    (27, 18, 7),
    (28, 18, 6),
    (27, 18, 8),
    (28, 18, 7),
    (52, 0, 0),
    (53, 0, 0),
    (12, 33, 7),
    (12, 34, 7),
];

fn sizes() -> Vec<Vec<u8>> {
    let streams = SIZES.map(|(extended_size, index_size, data_size)| {
        let fields = Fields {
            extended_size,
            index_size,
            data_size,
            ..extended()
        };
        fields.bytes()
    });
    streams.to_vec()
}

/// MSG_ID at each end, with all sections and without metadata.
fn ids() -> Vec<Vec<u8>> {
    let whole = Sample::extended(Layout::New);
    let samples = [whole.with(|sample| sample.metadata.clear()), whole];
    let of_sample = |sample: Sample| {
        let ids = [0, 1, 0x0100_0000, u32::MAX];
        ids.map(|id| sample.with(|sample| sample.id = id).bytes())
    };
    samples.into_iter().flat_map(of_sample).collect()
}

/// Two faults or more: the first in the reader's order counts.
fn orders() -> Vec<Vec<u8>> {
    with_changes(
        &Sample::extended(Layout::New),
        [
            |fields| (fields.name_field[19], fields.data_size) = (1, u32::MAX),
            |fields| (fields.name_field[0], fields.data_size) = (128, u32::MAX),
            |fields| (fields.body_size, fields.index_size) = (Some(1000), 17),
            |fields| (fields.version, fields.index_size) = (3, 17),
            |fields| (fields.version, fields.data_size) = (3, u32::MAX),
            |fields| (fields.crc, fields.index_size) = (Some(0), 17),
            |fields| (fields.crc, fields.data_size) = (Some(0), u32::MAX),
            |fields| (fields.data_size, fields.metadata[1]) = (u32::MAX, 9),
            |fields| (fields.extended_size, fields.index_size) = (11, 17),
            |fields| (fields.data_size, fields.content) = (u32::MAX, vec![9; 11]),
            |fields| fields.metadata[0] = 0x20,
            |fields| fields.metadata[1] = 1,
            |fields| fields.metadata[1] = 3,
            |fields| (fields.index_size, fields.data_size, fields.content) = (17, 8, vec![9; 11]),
            |fields| (fields.type_field, fields.index_size) = (*b"IMAGE\0\0\0\0\0\0\0", 17),
            |fields| (fields.type_field, fields.index_size) = (*b"BIND\0\0\0\0\0\0\0\0", 17),
            |fields| (fields.metadata[18], fields.content) = (0, vec![9; 11]),
            |fields| fields.content = vec![9; 11],
        ],
    )
}

/// Sections of up to a megabyte; wrong sizes of one of 70,000 bytes; counts around 8,191.
pub fn long_streams() -> Vec<Vec<u8>> {
    let lengths = [65_535, 65_536, 70_000, 131_083, 1_000_000];
    let whole = lengths.map(|length| one_entry(length).bytes());
    [whole.to_vec(), wrong_sizes(), large_counts()].concat()
}

/// A TRANSFORM with a section of so many bytes.
fn one_entry(length: usize) -> Sample {
    let section = metadata::section(&[(b"k", &vec![0; length - 11])]);
    Sample {
        id: 9,
        further: vec![0; 5],
        content: vec![0; 48],
        type_text: b"TRANSFORM".to_vec(),
        ..with_metadata(Layout::New, section)
    }
}

fn wrong_sizes() -> Vec<Vec<u8>> {
    with_changes(
        &one_entry(70_000),
        [
            |fields| fields.data_size -= 1,
            |fields| (fields.data_size, fields.content) = (fields.data_size + 1, vec![]),
            |fields| (fields.index_size, fields.data_size) = (8, fields.data_size + 2),
            |fields| (fields.index_size, fields.data_size) = (0, 70_000),
            |fields| (fields.index_size, fields.data_size) = (65_535, 70_000 - 65_535),
            |fields| fields.data_size -= 65_536,
            |fields| fields.data_size += 1 << 31,
            |fields| fields.data_size = u32::MAX - 74,
            |fields| fields.metadata[6..10].fill(0),
            |fields| fields.metadata[10] = 0,
            |fields| fields.content.push(0),
            |fields| fields.metadata.extend([0; 48]),
        ],
    )
}

/// The entries' keys have no bytes. No METADATA_HEADER_SIZE is right for 8,192.
fn large_counts() -> Vec<Vec<u8>> {
    let sizes = [
        (8_191, 65_530),
        (8_191, 65_535),
        (8_192, 65_535),
        (8_192, 2),
    ];
    let streams = sizes.map(|(count, index_size): (u16, u16)| {
        let mut metadata = vec![0; 73_721];
        metadata[..2].copy_from_slice(&count.to_be_bytes());
        let fields = Fields {
            index_size,
            data_size: 73_721 - u32::from(index_size),
            ..Fields::of(&with_metadata(Layout::New, metadata))
        };
        fields.bytes()
    });
    streams.to_vec()
}

#[cfg(test)]
mod tests {
    use super::{ids, long_streams, orders, rows, single_sizes, sizes, Layout};
    use crate::vectors::messages::tests::answers;

    #[test]
    fn rows_in_both_layouts() {
        let new = [
            0, 6, 0, 0, 0, 0, 7, 7, 7, 7, 7, 7, 7, 6, 7, 0, 0, 7, 7, 7, 7, 7, 7, 7, 7, 6, 6, 6,
        ];
        assert_eq!(answers(Layout::New, &rows()), new);
        let mut old = [6; 28];
        [old[1], old[2], old[27]] = [0; 3];
        old[4] = 7;
        assert_eq!(answers(Layout::Old, &rows()), old);
    }

    #[test]
    fn sizes_around_the_right_ones() {
        let extended = [6, 6, 8, 8, 8, 8, 8, 6, 6, 6, 6, 6];
        let index = [7, 7, 7, 7, 7, 7, 7, 7, 6, 6, 6, 6, 6];
        let data = [7, 7, 7, 7, 7, 6, 6, 6, 6, 6, 6, 6, 6, 6, 6];
        let expected = [&extended[..], &index, &data].concat();
        assert_eq!(answers(Layout::New, &single_sizes()), expected);
    }

    #[test]
    fn sizes_whose_sums_wrap_are_refused() {
        let expected = [
            7, 7, 7, 7, 7, 7, 7, 6, 6, 6, 6, 8, 6, 6, 6, 6, 6, 6, 6, 6, 6, 8, 7, 6, 6, 8, 6, 7, 6,
        ];
        assert_eq!(answers(Layout::New, &sizes()), expected);
    }

    #[test]
    fn every_id_is_accepted() {
        assert_eq!(answers(Layout::New, &ids()), [0; 8]);
    }

    #[test]
    fn the_first_fault_in_the_order_counts() {
        let expected = [6, 2, 1, 4, 4, 5, 5, 6, 6, 6, 7, 7, 7, 7, 7, 7, 7, 8];
        assert_eq!(answers(Layout::New, &orders()), expected);
    }

    #[test]
    fn long_sections() {
        let whole = [0; 5];
        let wrong = [7, 6, 7, 7, 7, 7, 6, 6, 7, 7, 8, 7];
        let expected = [&whole[..], &wrong, &[7; 4]].concat();
        assert_eq!(answers(Layout::New, &long_streams()), expected);
    }
}
