//! Cases of contents: what their readers answer, and which number each content gets as
//! a message's, as a child's, and as a BIND.

use super::bundles::{self, EMPTY};
use super::case::Case;
use super::patched::Patched;
use super::{images, trees};
use crate::content::image::{Header, Image};
use crate::content::pose::{Position, Transform};
use crate::content::{is_clean, parse, parse_nested};
use crate::fault::number;
use crate::random::Random;

const SEED: u64 = 2;
const TREES: usize = 300;

/// Words that are no number, no finite number, or a zero with a sign.
pub const ODD_WORDS: [u32; 8] = [
    0x7FC0_0000,
    0xFFC0_0001,
    0x7F80_0001,
    0x7F80_0000,
    0xFF80_0000,
    0x8000_0000,
    0x0000_0001,
    0xFFFF_FFFF,
];

pub fn cases() -> Vec<Case> {
    let mut random = Random::new(SEED);
    let typed = typed(&mut random);
    let typed = typed
        .iter()
        .map(|(text, content)| typed_case(text, content));
    [
        transforms(&mut random),
        positions(&mut random),
        images(),
        typed.collect(),
        patched(),
    ]
    .concat()
}

/// Bytes of this length: by chance, each its place, and the odd words.
fn floats(random: &mut Random, length: usize) -> [Vec<u8>; 3] {
    let odd = ODD_WORDS.iter().cycle().flat_map(|word| word.to_be_bytes());
    [
        random.bytes(length),
        (0..=255).take(length).collect(),
        odd.take(length).collect(),
    ]
}

fn transforms(random: &mut Random) -> Vec<Case> {
    let lengths = [0, 1, 12, 24, 44, 47, 48, 49, 52, 96];
    let contents = lengths.iter().flat_map(|&length| floats(random, length));
    contents.map(|content| transform_case(&content)).collect()
}

fn transform_case(content: &[u8]) -> Case {
    let transform = Transform::parse(content);
    let answer = number(&transform);
    Case::of_kind('T')
        .given(content)
        .number(answer)
        .number(answer)
        .words(&transform.unwrap_or_default().columns())
}

fn positions(random: &mut Random) -> Vec<Case> {
    let lengths = [0, 4, 8, 11, 12, 13, 16, 20, 23, 24, 25, 27, 28, 29, 32, 48];
    let contents = lengths.iter().flat_map(|&length| floats(random, length));
    contents.map(|content| position_case(&content)).collect()
}

fn position_case(content: &[u8]) -> Case {
    let position = Position::parse(content);
    let answer = number(&position);
    let words = position.map_or(Vec::new(), |position| position.words().to_vec());
    let mut seven = words.clone();
    seven.resize(7, 0);
    Case::of_kind('P')
        .given(content)
        .number(answer)
        .number(answer)
        .number(words.len())
        .words(&seven)
}

fn images() -> Vec<Case> {
    let samples = images::samples();
    let whole = images::p9().bytes();
    let cuts = [0, 1, 2, 70, 71, 72, 73].map(|length| whole[..length].to_vec());
    let contents = samples.iter().map(images::Sample::bytes).chain(cuts);
    contents.map(|content| image_case(&content)).collect()
}

fn image_case(content: &[u8]) -> Case {
    let image = Image::parse(content);
    let answer = number(&image);
    let (header, pixels) = image.map_or((Header::default(), Vec::new()), |image| {
        (image.header, image.pixels)
    });
    let kinds = [
        header.components,
        header.scalar_type,
        header.endian,
        header.coordinate,
    ];
    Case::of_kind('I')
        .given(content)
        .number(answer)
        .number(answer)
        .number(header.version)
        .numbers(kinds.map(u16::from))
        .numbers(header.size)
        .words(&header.vectors.concat())
        .numbers(header.part_offset)
        .numbers(header.part_size)
        .bytes(&pixels)
}

pub fn typed_case(type_text: &[u8], content: &[u8]) -> Case {
    let case = Case::of_kind('C').given(type_text).given(content);
    let as_message = judged(case, type_text, content);
    let as_child = as_message.number(number(&parse_nested(type_text, content)));
    judged(as_child, b"BIND", content)
}

/// The number and the mark of a message's content.
fn judged(case: Case, type_text: &[u8], content: &[u8]) -> Case {
    case.number(number(&parse(type_text, content)))
        .mark(is_clean(type_text, content))
}

fn typed(random: &mut Random) -> Vec<(Vec<u8>, Vec<u8>)> {
    let mut binds = bundles::samples();
    for _ in 0..TREES {
        let sound = trees::bind(random).encode();
        binds.push(trees::damaged(random, &sound));
        binds.push(sound);
    }
    let binds = binds.into_iter().map(|content| (b"BIND".to_vec(), content));
    exact_texts().into_iter().chain(binds).collect()
}

/// Types with a rule, and types that only look like them, over contents that break every rule or
/// keep one.
pub fn exact_texts() -> Vec<(Vec<u8>, Vec<u8>)> {
    let ruled: [&[u8]; 4] = [b"TRANSFORM", b"POSITION", b"IMAGE", b"BIND"];
    let alike: [&[u8]; 14] = [
        b"",
        b"STATUS",
        b"GET_TRANSFORM",
        b"GET_BIND",
        b"transform",
        b"Bind",
        b"BINDX",
        b"BIN",
        b"TRANSFORM\0",
        b"BIND\0\0\0\0\0\0\0\0",
        b" BIND",
        b"IMAGE\x80",
        b"POSITIONPOSITION",
        b"TDATA",
    ];
    let image = images::p9().bytes();
    let contents: [&[u8]; 6] = [b"", b"\x01\x02\x03", &[7; 12], &[7; 48], &image, &EMPTY];
    let texts = ruled.into_iter().chain(alike);
    let pairs = texts.flat_map(|text| contents.map(|content| (text.to_vec(), content.to_vec())));
    pairs.collect()
}

/// BINDs of as many children as fit, sound and with a fault near the end; images of more than
/// 65,535 bytes.
fn patched() -> Vec<Case> {
    let most = Patched::children(65_534);
    let binds = [
        most.clone(),
        most.clone().patch(2, 1),
        most.clone().patch(2, 0x0100),
        most.clone().patch(4, 0x0080),
        most.clone().longer(1),
        most.clone().longer(-1),
        // The last child's size, and its type.
        most.clone().patch(65_538, 1),
        most.patch(65_556, 0x0100),
        Patched::children(65_533),
        Patched::children(65_533).patch(2, 0x0100),
        // Its table would take 65,536 bytes.
        Patched::new(1_376_240, &[(0, 65_535)]),
        Patched::new(1_376_238, &[(0, 65_535), (1_310_702, 65_534)]),
        Patched::new(1_376_239, &[(0, 65_535), (1_310_702, 65_535)]),
    ];
    let header = [(2, 0x0102), (4, 0x0101), (6, 256), (8, 128), (10, 3)];
    let header = [&header[..], &[(66, 256), (68, 128), (70, 3)]].concat();
    let images = [98_304, 98_303, 98_305, 32_768].map(|pixels| Patched::new(72 + pixels, &header));
    let binds = binds.iter().map(|content| patched_case(b"BIND", content));
    let images = images.iter().map(|content| patched_case(b"IMAGE", content));
    binds.chain(images).collect()
}

pub fn patched_case(type_text: &[u8], patched: &Patched) -> Case {
    let [length, changes] = patched.fields();
    let case = Case::of_kind('Z')
        .given(type_text)
        .given(&length)
        .given(&changes);
    judged(case, type_text, &patched.content())
}
