//! Cases of headers, read and written, and of time stamps.

use super::case::Case;
use super::out::{answered, rooms, Out};
use super::samples::{set, with_changes, Sample};
use super::writers::TYPES;
use crate::fault::number;
use crate::message::body::Layout;
use crate::message::header::{Header, LENGTH};
use crate::message::time_stamp::{nanoseconds, seconds};
use crate::random::Random;
use crate::writer::write_header;

const SEED: u64 = 6;
const CHANCES: usize = 60;

/// The largest body, and sizes around it and where fewer bits would take them for small ones.
const BODY_SIZES: [u64; 12] = [
    0,
    1,
    0xFF_FFFF,
    0x100_0000,
    0x100_0001,
    0x200_0000,
    0x1_0000_0000,
    0x1_0000_0001,
    1 << 63,
    u64::MAX,
    u64::MAX - 57,
    u64::MAX - 58,
];

pub fn cases() -> Vec<Case> {
    let mut random = Random::new(SEED);
    [
        read_headers(&mut random),
        stamps(&mut random),
        written_texts(),
        written_numbers(&mut random),
    ]
    .concat()
}

pub fn header_case(stream: &[u8]) -> Case {
    let header = Header::parse(stream);
    let answer = number(&header);
    let clean = header.is_ok_and(|header| header.is_clean(stream));
    let header = header.unwrap_or_default();
    Case::of_kind('H')
        .given(stream)
        .number(answer)
        .number(header.version)
        .numbers([header.type_text.len(), header.device_name.len()])
        .numbers([header.time_stamp, header.body_size])
        .bytes(&header.crc.to_be_bytes())
        .mark(clean)
        .bytes(header.type_text)
        .bytes(header.device_name)
}

fn read_headers(random: &mut Random) -> Vec<Case> {
    let whole = Sample::extended(Layout::Old).bytes();
    let lengths = [0, 1, 2, 14, 34, 56, 57, LENGTH, 59, whole.len()];
    let lengths = lengths.map(|length| whole[..length].to_vec());
    let sound = &whole[..LENGTH];
    let bytes = (0..LENGTH).flat_map(|place| {
        let values = [0, 1, 127, 128, 255];
        values.map(|value| set(sound, place, value))
    });
    let sizes = BODY_SIZES.map(|size| {
        let numbers = [size.to_be_bytes(), [7; 8]].concat();
        [&sound[..42], &numbers].concat()
    });
    let chances = (0..CHANCES).map(|_| {
        let numbers = random.bytes(LENGTH - 34);
        [&[0; 34][..], &numbers].concat()
    });
    let samples = lengths.into_iter().chain(bytes).chain(sizes);
    let streams = samples.chain(texts()).chain(chances);
    streams.map(|stream| header_case(&stream)).collect()
}

/// Texts that fill their fields, are empty, go on after a 0, or have a byte that is none.
pub fn texts() -> Vec<Vec<u8>> {
    let sample = Sample::plain(b"STATUS", b"");
    with_changes(
        &sample,
        [
            |fields| fields.type_field = [0; 12],
            |fields| fields.type_field = *b"TWELVE_BYTES",
            |fields| fields.type_field = *b"ELEVEN_BYTE\0",
            |fields| fields.type_field = *b"TWELVE_BYTE\x80",
            |fields| fields.type_field = *b"STATUS\0\0\0\0\0A",
            |fields| fields.type_field = *b"STATUS\0S\0\0\0\0",
            |fields| fields.type_field = *b"\0STATUS\0\0\0\0\0",
            |fields| fields.type_field = *b"\x80\0\0\0\0\0\0\0\0\0\0\0",
            |fields| fields.type_field = [127; 12],
            |fields| fields.type_field = [1; 12],
            |fields| fields.name_field = [0; 20],
            |fields| fields.name_field = *b"A name of 20 bytes!!",
            |fields| fields.name_field = *b"A name of 19 bytes!\0",
            |fields| fields.name_field = *b"A name of 20 bytes!\xFF",
            |fields| fields.name_field = *b"A name\0of 20 bytes!!",
            |fields| fields.name_field[19] = 1,
            |fields| fields.name_field[4] = b'A',
            |fields| fields.name_field[0] = 0,
            |fields| fields.name_field[0] = 128,
            |fields| fields.name_field[2] = 0xFF,
            |fields| fields.name_field = [127; 20],
            |fields| fields.name_field = [1; 20],
            // A text without end: the name goes on where the type ends.
            |fields| (fields.type_field, fields.name_field) = ([b'T'; 12], [b'T'; 20]),
            |fields| (fields.type_field[0], fields.name_field[0]) = (128, 128),
            |fields| (fields.type_field, fields.name_field) = ([0; 12], [0; 20]),
            |fields| (fields.type_field[11], fields.body_size) = (1, Some(u64::MAX)),
            |fields| (fields.name_field[19], fields.body_size) = (1, Some(0x100_0001)),
        ],
    )
}

/// The fractions around each whole number of a few nanoseconds, and by chance.
fn stamps(random: &mut Random) -> Vec<Case> {
    let borders = [1, 2, 3, 10, 999, 499_999_999, 500_000_000, 999_999_999];
    let around = borders.into_iter().flat_map(|nanosecond: u64| {
        let fraction = (nanosecond << 32).div_ceil(1_000_000_000);
        [fraction - 1, fraction, fraction + 1]
    });
    let whole = [0, 1, u64::MAX, 1 << 32, 1 << 31, 1 << 63, 0xFFFF_FFFF];
    let chances = (0..CHANCES).map(|_| random.word());
    let stamps = whole.into_iter().chain(around).chain(chances);
    stamps.map(stamp_case).collect()
}

fn stamp_case(time_stamp: u64) -> Case {
    Case::of_kind('s')
        .given(&time_stamp.to_be_bytes())
        .numbers([seconds(time_stamp), nanoseconds(time_stamp)])
}

pub fn written_case(header: &Header, out: Out) -> Case {
    let numbers = [header.time_stamp, header.body_size, header.crc];
    let numbers = numbers.map(u64::to_be_bytes).concat();
    let case = out
        .case('h')
        .given(&[&header.version.to_be_bytes()[..], &numbers].concat())
        .given(header.type_text)
        .given(header.device_name);
    answered(case, out.after(|out| write_header(header, out)))
}

fn arm() -> Header<'static> {
    Header {
        version: 2,
        type_text: b"STATUS",
        device_name: b"Arm",
        time_stamp: 0x0102_0304_0506_0708,
        body_size: 0x90_A0B0,
        crc: 0xC1C2_C3C4_C5C6_C7C8,
    }
}

/// Types around 12 bytes and names around 20, and bytes that no text has.
pub fn texts_written() -> Vec<[&'static [u8]; 2]> {
    let longest: [&[u8]; 2] = [b"ELEVEN_BYTE", b"TWELVE_BYTE\xFF"];
    let types = TYPES.into_iter().chain(longest);
    let names: [&[u8]; 9] = [
        b"",
        b"A name of 19 bytes!",
        b"A name of 20 bytes!!",
        b"A name of 21 bytes!!!",
        b"\x7F\x01",
        b"\0Arm",
        b"Arm\0",
        b"\x80",
        b"A name of 20 bytes!\xFF",
    ];
    let of_types = types.map(|type_text| [type_text, b"Arm"]);
    let of_names = names.map(|name| [b"STATUS", name]);
    let both: [[&[u8]; 2]; 2] = [[&[1; 300], &[1; 300]], [b"", b""]];
    of_types.chain(of_names).chain(both).collect()
}

/// Each of them alone, with too little room, and with too large a body and no room.
fn written_texts() -> Vec<Case> {
    let cases = texts_written().into_iter().flat_map(|texts| {
        let [type_text, device_name] = texts;
        let header = Header {
            type_text,
            device_name,
            ..arm()
        };
        let large = Header {
            body_size: u64::MAX,
            ..header
        };
        [
            written_case(&header, Out::new(60)),
            written_case(&header, Out::new(57)),
            written_case(&large, Out::new(0)),
        ]
    });
    cases.collect()
}

fn written_numbers(random: &mut Random) -> Vec<Case> {
    let versions = [0, 1, 2, 3, 0x0100, 65_535];
    let versions = versions.map(|version| Header { version, ..arm() });
    let sizes = BODY_SIZES.map(|body_size| Header { body_size, ..arm() });
    let chances = (0..CHANCES / 3).map(|_| Header {
        version: random.u32().to_be_bytes()[0].into(),
        time_stamp: random.word(),
        body_size: random.word() >> random.pick(&[0, 38, 40, 48]),
        crc: random.word(),
        ..arm()
    });
    let headers = versions.into_iter().chain(sizes).chain(chances);
    let enough = headers.map(|header| written_case(&header, Out::new(58)));
    let around = rooms(58).map(|out| written_case(&arm(), out));
    enough.chain(around).collect()
}
