//! Pseudo-random BIND contents, sound and damaged.

use super::images;
use crate::content::pose::{Position, Transform};
use crate::content::{image::Image, Child, Content};
use crate::random::Random;

/// One level more than is allowed.
const LEVELS: usize = 5;

const OTHER_TYPES: [&[u8]; 8] = [
    b"STATUS",
    b"STRING",
    b"",
    b"transform",
    b"BINDX",
    b"TWELVE_BYTES",
    b"GET_POSITION",
    b"TRANSFOR",
];

pub const NAMES: [&[u8]; 7] = [b"", b"A", b"B", b"AB", b"Arm", b"\x01\x7F", b"arm"];

/// The content of a BIND whose children may break their rules.
pub fn bind(random: &mut Random) -> Content {
    bind_of_level(random, 1)
}

/// A child of the outermost BIND.
pub fn child(random: &mut Random) -> Child {
    child_of_level(random, 1)
}

fn bind_of_level(random: &mut Random, level: usize) -> Content {
    let most = if level == 1 { 5 } else { 3 };
    let children = (0..random.below(most + 1)).map(|_| child_of_level(random, level));
    Content::Bind(children.collect())
}

fn child_of_level(random: &mut Random, level: usize) -> Child {
    let kinds = if level < LEVELS { 9 } else { 5 };
    let (type_text, content): (&[u8], Content) = match random.below(kinds) {
        0 => (b"TRANSFORM", Content::Transform(transform(random))),
        1 => (b"POSITION", Content::Position(position(random))),
        2 => (b"IMAGE", Content::Image(image(random))),
        3 => (random.pick(&OTHER_TYPES), opaque(random, 9)),
        4 => (faulty_type(random), opaque(random, 60)),
        _ => (b"BIND", bind_of_level(random, level + 1)),
    };
    Child {
        type_text: type_text.to_vec(),
        name: random.pick(&NAMES).to_vec(),
        content,
    }
}

/// Once in four a type that has a rule, which bytes of any length mostly break.
fn faulty_type(random: &mut Random) -> &'static [u8] {
    let ruled: [&[u8]; 4] = [b"TRANSFORM", b"POSITION", b"IMAGE", b"BIND"];
    if random.below(4) == 0 {
        random.pick(&ruled)
    } else {
        random.pick(&OTHER_TYPES)
    }
}

fn words<const N: usize>(random: &mut Random) -> [u32; N] {
    std::array::from_fn(|_| random.u32())
}

fn transform(random: &mut Random) -> Transform {
    Transform::from_columns(words(random))
}

fn position(random: &mut Random) -> Position {
    let count = random.pick(&[3, 6, 7]);
    let words = words::<7>(random)[..count].to_vec();
    Position::from_words(words).expect("3, 6 or 7 words")
}

fn image(random: &mut Random) -> Image {
    let mut header = images::p9().header;
    header.components = random.pick(&[1, 2]);
    header.scalar_type = random.pick(&[2, 3, 4, 5]);
    header.vectors = std::array::from_fn(|_| words(random));
    header.part_size[0] = random.pick(&[1, 2]);
    header.part_size[1] = 1;
    let length = header.pixel_bytes().expect("the header keeps the rule");
    let pixels = random.bytes(usize::try_from(length).expect("a few pixels"));
    Image::new(header, &pixels).expect("as many pixels as it says")
}

fn opaque(random: &mut Random, most: usize) -> Content {
    let length = random.below(most + 1);
    Content::Opaque(random.bytes(length))
}

/// The bytes with one bit changed; the front, which holds the layout, half of the time.
pub fn damaged(random: &mut Random, bytes: &[u8]) -> Vec<u8> {
    let mut bytes = bytes.to_vec();
    let reach = if random.below(2) == 0 { 64 } else { usize::MAX };
    let place = random.below(bytes.len().min(reach));
    bytes[place] ^= 1 << random.below(8);
    bytes
}

#[cfg(test)]
mod tests {
    use super::{bind, damaged};
    use crate::content::parse;
    use crate::fault::number;
    use crate::random::Random;

    #[test]
    fn an_accepted_tree_is_read_as_itself() {
        let mut random = Random::new(7);
        for _ in 0..500 {
            let bytes = bind(&mut random).encode();
            if let Ok(content) = parse(b"BIND", &bytes) {
                assert_eq!(content.encode(), bytes);
            }
        }
    }

    #[test]
    fn trees_and_damaged_trees_give_every_number() {
        let mut random = Random::new(7);
        let mut seen = Vec::new();
        for _ in 0..500 {
            let sound = bind(&mut random).encode();
            let broken = damaged(&mut random, &sound);
            seen.extend([sound, broken].map(|bytes| number(&parse(b"BIND", &bytes))));
        }
        assert!([0, 8, 9, 10, 11].iter().all(|number| seen.contains(number)));
    }
}
