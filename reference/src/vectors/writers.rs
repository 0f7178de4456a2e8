//! Cases of content writers.

use super::bundles::{faulty, faulty_pairs, nest, part, EMPTY};
use super::case::{field, Case};
use super::contents::ODD_WORDS;
use super::out::{answered, answered_with_crc, rooms, Out};
use super::{images, trees};
use crate::content::bind::Part;
use crate::content::image::Header;
use crate::content::pose::Transform;
use crate::random::Random;
use crate::writer::{write_bind, write_image, write_position, write_transform, Written};

const SEED: u64 = 4;
const TREES: usize = 200;

pub fn cases() -> Vec<Case> {
    let mut random = Random::new(SEED);
    [
        transforms(&mut random),
        positions(&mut random),
        images(),
        binds(),
        random_binds(&mut random),
        long_names(),
        many_children(),
    ]
    .concat()
}

fn transforms(random: &mut Random) -> Vec<Case> {
    let chance = std::array::from_fn(|_| random.u32());
    let odd = std::array::from_fn(|place| ODD_WORDS[place % ODD_WORDS.len()]);
    let cases = [chance, odd, [0; 12]].into_iter().flat_map(|words| {
        let transform = Transform::from_columns(words);
        rooms(48).map(|out| {
            let case = out.case('t').given(&transform.encode());
            answered(case, out.after(|out| write_transform(&transform, out)))
        })
    });
    cases.collect()
}

fn positions(random: &mut Random) -> Vec<Case> {
    let mut words: Vec<u32> = ODD_WORDS.to_vec();
    words.extend((0..4).map(|_| random.u32()));
    let cases = (0..=words.len()).flat_map(|count| {
        let words = &words[..count];
        let bytes: Vec<u8> = words.iter().flat_map(|word| word.to_be_bytes()).collect();
        rooms(4 * count).map(|out| {
            let case = out.case('p').given(&bytes);
            answered(case, out.after(|out| write_position(words, out)))
        })
    });
    cases.collect()
}

/// Each sample into a room that is enough, and P9 into each room.
fn images() -> Vec<Case> {
    let samples = images::samples().into_iter();
    let enough = samples.map(|sample| {
        let length = 72 + sample.pixels.len();
        image_case(&sample.header, &sample.pixels, Out::new(length))
    });
    let p9 = images::p9();
    let around = rooms(96).map(|out| image_case(&p9.header, &p9.pixels, out));
    let short = rooms(96).map(|out| image_case(&p9.header, &p9.pixels[1..], out));
    enough.chain(around).chain(short).collect()
}

fn image_case(header: &Header, pixels: &[u8], out: Out) -> Case {
    let case = out.case('i').given(&header.encode()).given(pixels);
    answered(case, out.after(|out| write_image(header, pixels, out)))
}

/// What a BIND writer is given: three lists, which may differ in length.
#[derive(Clone, Default)]
pub struct Lists<'a> {
    types: Vec<&'a [u8]>,
    names: Vec<&'a [u8]>,
    contents: Vec<&'a [u8]>,
}

impl<'a> Lists<'a> {
    pub fn of(parts: &[Part<'a>]) -> Self {
        Lists {
            types: parts.iter().map(|part| part.type_text).collect(),
            names: parts.iter().map(|part| part.name).collect(),
            contents: parts.iter().map(|part| part.data).collect(),
        }
    }

    fn write(&self, out: &mut [u8]) -> Written {
        write_bind(&self.types, &self.names, &self.contents, out)
    }

    /// The bytes that it takes; where it is refused, about as many as it would take, so that
    /// a buffer touched all the same shows.
    pub fn length(&self) -> usize {
        let items = self.names.iter().chain(&self.contents);
        let about = 4 + 20 * self.types.len() + items.map(|item| item.len() + 1).sum::<usize>();
        let written = Out::new(about + 4).after(|out| self.write(out)).0;
        written.unwrap_or(about)
    }

    pub fn case(&self, out: Out) -> Case {
        let case = out
            .case('b')
            .given(&list(&self.types))
            .given(&list(&self.names))
            .given(&list(&self.contents));
        answered(case, out.after(|out| self.write(out)))
    }
}

/// The length of a list in one byte, and then its items.
fn list(items: &[&[u8]]) -> Vec<u8> {
    let length = u8::try_from(items.len()).expect("a short list");
    let fields = items.iter().flat_map(|item| field(item));
    std::iter::once(length).chain(fields).collect()
}

fn binds() -> Vec<Case> {
    let image = images::p9().bytes();
    let depths = [
        nest(1, &EMPTY),
        nest(2, &EMPTY),
        nest(3, &EMPTY),
        nest(3, &[1]),
    ];
    let lists = [
        texts(),
        faulty_children(),
        unequal(),
        of_every_type(&image),
        deep(&depths),
    ];
    let cases = lists.concat();
    let cases = cases.iter().flat_map(|lists| {
        let rooms = rooms(lists.length());
        rooms.map(|out| lists.case(out))
    });
    cases.collect()
}

/// Types on both sides of the rule of a type's field.
pub const TYPES: [&[u8]; 9] = [
    b"",
    b"STATUS",
    b"TWELVE_BYTES",
    b"THIRTEEN_BYTE",
    b"\x01\x7F",
    b"STATUS\0",
    b"\0",
    b"ST\x80TUS",
    b"\xFF",
];

/// One child with types and names around what can be written.
fn texts() -> Vec<Lists<'static>> {
    let names: [&[u8]; 9] = [
        b"",
        b"A",
        b"AB",
        b"\x01\x7F",
        b"longer than twenty bytes",
        b"\0",
        b"A\0",
        b"A\x80",
        b"\xFF",
    ];
    let of_types = TYPES.map(|type_text| part(type_text, b"A", b"odd"));
    let of_names = names.map(|name| part(b"STATUS", name, b"even"));
    let parts = of_types.into_iter().chain(of_names);
    parts.map(|part| Lists::of(&[part])).collect()
}

/// Children that break their rules, in every order; a layout fault after them.
fn faulty_children() -> Vec<Lists<'static>> {
    let bad_name = part(b"STATUS", b"A\x80", b"");
    let before_fault = faulty().map(|child| Lists::of(&[child, bad_name]));
    let pairs = faulty_pairs().map(|pair| Lists::of(&pair));
    pairs.chain(before_fault).collect()
}

/// Two children, with one type, name or content more or less.
fn unequal() -> Vec<Lists<'static>> {
    let two = Lists::of(&[part(b"STATUS", b"A", b"odd"), part(b"", b"", b"")]);
    let change = |change: fn(&mut Lists<'static>)| {
        let mut lists = two.clone();
        change(&mut lists);
        lists
    };
    vec![
        change(|lists| lists.types.truncate(1)),
        change(|lists| lists.names.truncate(1)),
        change(|lists| lists.contents.truncate(1)),
        change(|lists| lists.types.push(b"")),
        change(|lists| lists.names.push(b"")),
        change(|lists| lists.contents.push(b"")),
        change(|lists| lists.types.clear()),
        change(|lists| lists.contents.clear()),
        Lists::default(),
        two,
    ]
}

fn of_every_type(image: &[u8]) -> Vec<Lists<'_>> {
    let parts = [
        part(b"TRANSFORM", b"Arm", &[7; 48]),
        part(b"POSITION", b"Arm", &[7; 12]),
        part(b"POSITION", b"Needle", &[7; 24]),
        part(b"POSITION", b"", &[7; 28]),
        part(b"IMAGE", b"Scan", image),
        part(b"BIND", b"Inner", &EMPTY),
        part(b"STATUS", b"Scan", &[255; 5]),
        part(b"transform", b"", &[1]),
    ];
    let some = [0..1, 0..2, 0..3, 0..4, 4..8];
    some.map(|range| Lists::of(&parts[range])).to_vec()
}

/// A child that is a BIND, of one level more each.
fn deep(contents: &[Vec<u8>]) -> Vec<Lists<'_>> {
    let status = part(b"STATUS", b"A", b"odd");
    let short = part(b"TRANSFORM", b"A", &[]);
    let of_content = |content| {
        let deep = part(b"BIND", b"D", content);
        [
            Lists::of(&[deep]),
            Lists::of(&[status, deep]),
            Lists::of(&[deep, short]),
            Lists::of(&[short, deep]),
        ]
    };
    contents
        .iter()
        .flat_map(|content| of_content(content))
        .collect()
}

fn random_binds(random: &mut Random) -> Vec<Case> {
    let mut case = || {
        let contents: Vec<_> = (0..random.below(5)).map(|_| random_child(random)).collect();
        let parts = contents.iter().map(|(type_text, content)| {
            let name = random.pick(&trees::NAMES);
            part(type_text, name, content)
        });
        let lists = Lists::of(&parts.collect::<Vec<_>>());
        let room = lists.length() + random.below(4);
        let fill = random.bytes(1)[0];
        let room = room.saturating_sub(random.below(3));
        lists.case(Out { room, fill })
    };
    (0..TREES).map(|_| case()).collect()
}

/// The type and the content of a child, once in four with one bit changed.
fn random_child(random: &mut Random) -> (Vec<u8>, Vec<u8>) {
    let child = trees::child(random);
    let content = child.content.encode();
    if content.is_empty() || random.below(4) > 0 {
        (child.type_text, content)
    } else {
        (child.type_text, trees::damaged(random, &content))
    }
}

/// One child without bytes, whose name fills the table, or does not fit it.
fn long_names() -> Vec<Case> {
    let lengths = [1, 65_532, 65_533, 65_534, 65_535, 65_536, 131_069];
    let cases = lengths.iter().flat_map(|&length| {
        let name = vec![b'A'; length];
        let lists = Lists::of(&[part(b"", &name, b"")]);
        let length = u32::try_from(length).expect("a length fits four bytes");
        [65_557, 65_558, 65_559].map(|room| {
            let out = Out::new(room);
            let case = out.case('n').given(&length.to_be_bytes());
            answered_with_crc(case, out.after(|out| lists.write(out)))
        })
    });
    cases.collect()
}

/// So many children without type, name or bytes.
fn many_children() -> Vec<Case> {
    let cases = [
        (0, 4),
        (2, 46),
        (65_533, 1_376_198),
        (65_534, 1_376_217),
        (65_534, 1_376_218),
        (65_534, 1_376_219),
        (65_535, 1_376_256),
        (65_536, 1_376_256),
    ];
    let cases = cases.map(|(count, room)| {
        let lists = Lists::of(&vec![part(b"", b"", b""); count]);
        let count = u32::try_from(count).expect("a count fits four bytes");
        let out = Out::new(room);
        let case = out.case('m').given(&count.to_be_bytes());
        answered_with_crc(case, out.after(|out| lists.write(out)))
    });
    cases.to_vec()
}
