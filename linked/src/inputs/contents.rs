//! Contents of every type by themselves.

use super::damage::{change, edge, number, resize};
use super::stock::Stock;
use super::{any_or_few, Input};
use reference::content::image::Header;
use reference::random::Random;
use reference::vectors::{bundles, rests, trees};
use std::ops::Range;

const RULED: [&[u8]; 4] = [b"TRANSFORM", b"POSITION", b"IMAGE", b"BIND"];

pub struct Typed {
    pub type_text: Vec<u8>,
    pub content: Vec<u8>,
}

impl Typed {
    fn new(type_text: &[u8], content: Vec<u8>) -> Self {
        let type_text = type_text.to_vec();
        Typed { type_text, content }
    }

    /// Half of the time with something after the texts of a BIND's CTYPE fields, at all levels.
    pub fn with_rests(mut self, random: &mut Random) -> Self {
        if self.type_text == b"BIND" && random.below(2) == 0 {
            let fields = rests::type_fields(&self.content);
            self.content = rests::by_chance(random, &self.content, &fields);
        }
        self
    }

    fn input(self) -> Input {
        let Typed { type_text, content } = self;
        Input::Content { type_text, content }
    }
}

/// Now and then of a type that only looks like one with a rule.
pub fn whole(random: &mut Random, stock: &Stock) -> Input {
    let typed = match random.below(8) {
        0 => stored(random, &stock.alike),
        _ => typed(random, stock),
    };
    typed.with_rests(random).input()
}

/// One fault or two; now and then judged by another type's rule.
pub fn with_faults(random: &mut Random, stock: &Stock) -> Input {
    let mut typed = typed(random, stock).with_rests(random);
    for _ in 0..random.pick(&[1, 1, 2]) {
        damage(random, &mut typed);
    }
    typed.input()
}

/// A content of any type: most keep their rules.
pub fn typed(random: &mut Random, stock: &Stock) -> Typed {
    match random.below(20) {
        0..=7 => child(random),
        8..=10 => Typed::new(b"BIND", trees::bind(random).encode()),
        11..=13 => Typed::new(b"IMAGE", image(random)),
        14..=15 => stored(random, &stock.contents),
        16..=17 => nested(random),
        18 => long(random),
        _ => any_content(random),
    }
}

/// One of the types of a BIND's children.
fn child(random: &mut Random) -> Typed {
    let child = trees::child(random);
    Typed::new(&child.type_text, child.content.encode())
}

fn stored(random: &mut Random, contents: &[(Vec<u8>, Vec<u8>)]) -> Typed {
    let (type_text, content) = &contents[random.below(contents.len())];
    Typed::new(type_text, content.clone())
}

/// A BIND of up to five levels around a child, each the only one of the next.
fn nested(random: &mut Random) -> Typed {
    let Typed { type_text, content } = child(random);
    let name = random.pick(&trees::NAMES);
    let inner = bundles::bundle(&[bundles::part(&type_text, name, &content)]);
    Typed::new(b"BIND", bundles::nest(random.below(5), &inner))
}

/// Bytes that mostly break the rule of their type.
fn any_content(random: &mut Random) -> Typed {
    let length = random.pick(&[0, 2, 4, 6, 12, 24, 28, 48, 72, 73, 80]);
    Typed::new(random.pick(&RULED), any_or_few(random, length))
}

/// Hundreds or thousands of bytes.
fn long(random: &mut Random) -> Typed {
    let length = random.pick(&[200, 500, 1000, 3000]) + random.below(99);
    match random.below(3) {
        0 => Typed::new(b"STRING", random.bytes(length)),
        1 => Typed::new(b"IMAGE", row(random, length)),
        _ => Typed::new(b"BIND", many_children(random, length / 30)),
    }
}

/// A header that keeps its rule, and as many pixels as it says.
fn image(random: &mut Random) -> Vec<u8> {
    let part_size = random.pick(&[[1, 1, 1], [2, 1, 1], [1, 3, 1], [1, 1, 2], [2, 2, 1]]);
    image_of(random, part_size)
}

fn row(random: &mut Random, length: usize) -> Vec<u8> {
    let length = u16::try_from(length / 8).expect("some hundred pixels");
    image_of(random, [length, 1, 1])
}

fn image_of(random: &mut Random, part_size: [u16; 3]) -> Vec<u8> {
    let part_offset = random.pick(&[[0, 0, 0], [1, 0, 0], [0, 2, 1], [7, 7, 7]]);
    let beyond = random.pick(&[0, 0, 1, 300]);
    let header = Header {
        version: random.pick(&[0, 1, 2, 0xFFFF]),
        components: random.pick(&[1, 1, 2, 3]),
        scalar_type: random.pick(&[2, 3, 4, 5, 6, 7, 10, 11]),
        endian: random.pick(&[1, 2]),
        coordinate: random.pick(&[1, 2]),
        size: std::array::from_fn(|place| part_offset[place] + part_size[place] + beyond),
        vectors: [[random.u32(); 3]; 4],
        part_offset,
        part_size,
    };
    let length = header.pixel_bytes().expect("the header keeps the rule");
    let pixels = random.bytes(usize::try_from(length).expect("a short image"));
    [header.encode(), pixels].concat()
}

fn many_children(random: &mut Random, count: usize) -> Vec<u8> {
    let children: Vec<Vec<u8>> = (0..count).map(|place| vec![7; place % 4]).collect();
    let parts = children.iter().map(|data| {
        let name = random.pick(&trees::NAMES);
        bundles::part(b"STATUS", name, data)
    });
    bundles::bundle(&parts.collect::<Vec<_>>())
}

/// One fault, often in a field of the type's own.
pub fn damage(random: &mut Random, typed: &mut Typed) {
    let Typed { type_text, content } = typed;
    match (random.below(3), &type_text[..]) {
        (0, b"BIND") => {
            let sizes = bind_sizes(content);
            resize(random, content, &sizes);
        }
        (0, b"IMAGE") => set_image_field(random, content),
        (1, _) if random.below(4) == 0 => *type_text = random.pick(&RULED).to_vec(),
        _ => change(random, content),
    }
}

/// The fields of the first children's sizes, of the table's and of the count.
fn bind_sizes(content: &[u8]) -> Vec<Range<usize>> {
    let count = usize::try_from(number(content, 0..2)).expect("two bytes");
    let table = 2 + 20 * count;
    let children = (0..count.min(5)).map(|child| 14 + 20 * child..22 + 20 * child);
    children.chain([table..table + 2, 0..2]).collect()
}

fn set_image_field(random: &mut Random, content: &mut [u8]) {
    let fronts = [2..12, 60..72].map(|range| range.start + random.below(range.len()));
    if let Some(byte) = content.get_mut(random.pick(&fronts)) {
        *byte = edge(random);
    }
}
