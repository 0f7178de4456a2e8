//! Sample BIND contents, on both sides of each limit of the rule.

use super::images;
use crate::content::bind::{join, Part};
use crate::content::image::Header;

/// A content without children.
pub const EMPTY: [u8; 4] = [0; 4];

pub fn part<'a>(type_text: &'a [u8], name: &'a [u8], data: &'a [u8]) -> Part<'a> {
    Part {
        type_text,
        name,
        data,
    }
}

/// A content whose layout is sound, whatever the children hold.
pub fn bundle(parts: &[Part]) -> Vec<u8> {
    join(parts).expect("the children fit the fields of a BIND")
}

/// The data in so many BINDs, each the only child of the one around it.
pub fn nest(times: usize, data: &[u8]) -> Vec<u8> {
    (0..times).fold(data.to_vec(), |data, _| {
        bundle(&[part(b"BIND", b"A", &data)])
    })
}

/// Two opaque children of odd length, the first and the last; equal and empty names; a ruled child.
pub fn mixed() -> Vec<u8> {
    bundle(&mixed_parts())
}

fn mixed_parts() -> [Part<'static>; 4] {
    [
        part(b"STATUS", b"A", &[1, 2, 3]),
        part(b"POSITION", b"Arm", &[9; 12]),
        part(b"BIND", b"", &EMPTY),
        part(b"STRING", b"A", &[255]),
    ]
}

/// Every sample that is not made by chance.
pub fn samples() -> Vec<Vec<u8>> {
    [
        sound(),
        counts(),
        types(),
        tables(),
        csizes(),
        pads(),
        children(),
        depths(),
        truncations(&nest(1, &mixed())),
    ]
    .concat()
}

/// Accepted: P7 and P8, and names, types and data that are as short or as long as can be.
pub fn sound() -> Vec<Vec<u8>> {
    let transform = [7; 48];
    let image = images::p9().bytes();
    let long_name = [127; 300];
    vec![
        EMPTY.to_vec(),
        bundle(&[part(b"TRANSFORM", b"A", &transform)]),
        bundle(&[part(b"TRANSFORM", b"AB", &transform)]),
        bundle(&[part(b"", b"", b"")]),
        bundle(&[part(b"", b"", b""), part(b"", b"", b"")]),
        bundle(&[part(b"TWELVE_BYTES", b"\x01", &[0])]),
        bundle(&[part(b"\x01\x7F", b"\x7F\x01", &[0, 0])]),
        bundle(&[part(b"STATUS", &long_name, b"")]),
        bundle(&[part(b"STATUS", &long_name[1..], b"data")]),
        bundle(&[
            part(b"TRANSFORM", b"Arm", &transform),
            part(b"POSITION", b"Arm", &transform[..12]),
            part(b"POSITION", b"Needle", &transform[..24]),
            part(b"POSITION", b"", &transform[..28]),
            part(b"IMAGE", b"Scan", &image),
            part(b"BIND", b"Inner", &mixed()),
            part(b"STATUS", b"Scan", &[255; 5]),
        ]),
        mixed(),
        nest(1, &mixed()),
    ]
}

/// A content field by field, so that each can be made wrong.
#[derive(Clone)]
struct Fields {
    count: u16,
    types: Vec<[u8; 12]>,
    sizes: Vec<u64>,
    table_size: u16,
    table: Vec<u8>,
    /// Each with its pad.
    data: Vec<Vec<u8>>,
}

impl Fields {
    fn mixed() -> Self {
        let names = b"A\0Arm\0\0A\0".to_vec();
        let padded = [&names[..], &[0]].concat();
        let field = |text: &[u8]| std::array::from_fn(|place| *text.get(place).unwrap_or(&0));
        Fields {
            count: 4,
            types: mixed_parts().map(|part| field(part.type_text)).to_vec(),
            sizes: vec![3, 12, 4, 1],
            table_size: 10,
            table: padded,
            data: vec![vec![1, 2, 3, 0], vec![9; 12], vec![0; 4], vec![255, 0]],
        }
    }

    fn bytes(&self) -> Vec<u8> {
        let headers = self.types.iter().zip(&self.sizes);
        let headers = headers.flat_map(|(field, size)| [&field[..], &size.to_be_bytes()].concat());
        [
            self.count.to_be_bytes().to_vec(),
            headers.collect(),
            self.table_size.to_be_bytes().to_vec(),
            self.table.clone(),
            self.data.concat(),
        ]
        .concat()
    }
}

/// The mixed content after some changes of its fields.
fn with_changes<const N: usize>(changes: [fn(&mut Fields); N]) -> Vec<Vec<u8>> {
    let contents = changes.map(|change| {
        let mut fields = Fields::mixed();
        change(&mut fields);
        fields.bytes()
    });
    contents.to_vec()
}

fn counts() -> Vec<Vec<u8>> {
    let whole = [
        vec![],
        vec![0],
        vec![0; 2],
        vec![0; 3],
        vec![0; 5],
        vec![0; 6],
        vec![0, 0, 0, 2, 0, 0],
        vec![0, 0, 0, 1, 0],
        vec![0, 1, 0, 0],
        vec![255; 4],
    ];
    let changed = with_changes([
        |fields| fields.count = 0,
        |fields| fields.count = 3,
        |fields| fields.count = 5,
        |fields| fields.count = 0x0400,
        |fields| fields.count = 65_535,
    ]);
    [whole.to_vec(), changed].concat()
}

fn types() -> Vec<Vec<u8>> {
    with_changes([
        |fields| fields.types[0][11] = 1,
        |fields| fields.types[0][7] = b'X',
        |fields| fields.types[0][0] = 0,
        |fields| fields.types[0][0] = 128,
        |fields| fields.types[0][5] = 255,
        |fields| fields.types[3][11] = b' ',
        |fields| fields.types[3][0] = 0x80 | b'S',
        |fields| fields.types[3] = [127; 12],
        |fields| fields.types[3] = *b"TWELVE_BYTE\x80",
        |fields| fields.types[3] = [0; 12],
    ])
}

fn tables() -> Vec<Vec<u8>> {
    let shorter: [fn(&mut Fields); 8] = [
        |fields| set_table(fields, b"A\0Arm\0\0A\0"),
        |fields| set_table(fields, b"A\0Arm\0\0A\0\x01"),
        |fields| set_table(fields, b"A\0Arm\0\0A\0\0\0"),
        |fields| set_table(fields, b"A\0Arm\0\0A\0\0\0\0"),
        |fields| set_table(fields, b"A\0Arm\0\0AB\0"),
        |fields| set_table(fields, b"A\0Arm\0\0ABC"),
        |fields| set_table(fields, b"A\0Arm\0\0AB\0B\0"),
        |fields| set_table(fields, b"A\0Arm\0A\0"),
    ];
    let others: [fn(&mut Fields); 12] = [
        |fields| set_table(fields, b""),
        |fields| set_table(fields, b"\0\0\0\0"),
        |fields| set_table(fields, b"\0\0\0\0\0\0"),
        |fields| set_table(fields, b"\0\0\0\x01\0\0"),
        |fields| fields.table[0] = 128,
        |fields| fields.table[2] = 255,
        |fields| fields.table_size = 9,
        |fields| fields.table_size = 8,
        |fields| fields.table_size = 11,
        |fields| fields.table_size = 12,
        |fields| fields.table_size = 0,
        |fields| fields.table_size = 65_535,
    ];
    [with_changes(shorter), with_changes(others), single_tables()].concat()
}

fn set_table(fields: &mut Fields, table: &[u8]) {
    fields.table = table.to_vec();
    fields.table_size = u16::try_from(table.len()).expect("a short table");
}

/// One child of no bytes with tables of 0 to 4 bytes; no child with as many.
fn single_tables() -> Vec<Vec<u8>> {
    let tables: [&[u8]; 7] = [b"", b"\0", b"\0\0", b"A\0", b"\0A", b"AB\0\0", b"\0\0\0\0"];
    let of_count = |count: u16| {
        tables.map(|table| {
            let headers = vec![0; 20 * usize::from(count)];
            let size = u16::try_from(table.len()).expect("a short table");
            let sizes = [count.to_be_bytes(), size.to_be_bytes()];
            [&sizes[0][..], &headers, &sizes[1], table].concat()
        })
    };
    (0..=2).flat_map(of_count).collect()
}

/// Half of the numbers of 64 bits: twice as much wraps to 0.
const HALF: u64 = 1 << 63;

/// Sizes that are too long or too short, and such that sums of them wrap.
fn csizes() -> Vec<Vec<u8>> {
    let close = (0..4).flat_map(|child| {
        [-2, -1, 1, 2].map(|change| {
            let mut fields = Fields::mixed();
            fields.sizes[child] = fields.sizes[child].wrapping_add_signed(change);
            fields.bytes()
        })
    });
    let far = with_changes([
        |fields| fields.sizes[0] = u64::MAX,
        |fields| fields.sizes[0] = u64::MAX - 1,
        |fields| fields.sizes[3] = u64::MAX,
        |fields| fields.sizes[3] = u64::MAX - 1,
        |fields| fields.sizes[3] += HALF,
        |fields| fields.sizes = vec![HALF + 3, HALF + 12, 4, 1],
        |fields| fields.sizes = vec![3, HALF + 12, 4, HALF + 1],
        |fields| fields.sizes = [3, 12, 4, 1].map(|size| HALF / 2 + size).to_vec(),
        |fields| fields.sizes = vec![3, u64::MAX, 13, 4],
        |fields| fields.sizes = vec![3, u64::MAX - 1, 18, 1],
        |fields| fields.sizes = vec![(1 << 32) + 3, 12, 4, 1],
        |fields| fields.sizes = vec![3, 12, (1 << 32) + 4, 1],
        |fields| fields.sizes.swap(0, 1),
        |fields| fields.sizes = vec![22, 0, 0, 0],
        |fields| fields.sizes = vec![0, 0, 0, 0],
    ]);
    close.chain(far).collect()
}

/// Pads that are not 0, that are missing, and bytes after the last one.
fn pads() -> Vec<Vec<u8>> {
    let changed = with_changes([
        |fields| fields.table[9] = 1,
        |fields| fields.table[9] = 128,
        |fields| fields.data[0][3] = 1,
        |fields| fields.data[0][3] = 255,
        |fields| fields.data[3][1] = 1,
        |fields| fields.data[3][1] = 128,
        |fields| fields.data[0].truncate(3),
        |fields| fields.data[3].truncate(1),
        |fields| fields.data[1].push(0),
        |fields| fields.data[3].push(0),
        |fields| fields.data[3].extend([0, 0]),
        |fields| fields.data.truncate(3),
    ]);
    let odd = [b"1", b"2", b"3"].map(|data| part(b"STATUS", b"A", data));
    let wrong = [5, 3, 1].map(|from_end| {
        let mut content = bundle(&odd);
        let place = content.len() - from_end;
        content[place] = 1;
        content
    });
    changed.into_iter().chain(wrong).collect()
}

/// A child of each type that breaks its rule, and one that is sound.
pub fn faulty() -> [Part<'static>; 5] {
    [
        part(b"TRANSFORM", b"T", &[0; 47]),
        part(b"POSITION", b"P", &[0; 13]),
        part(b"IMAGE", b"I", &[0; 72]),
        part(b"BIND", b"B", &[0; 3]),
        part(b"STATUS", b"S", &[0; 3]),
    ]
}

/// Each of them with each: the first fault counts.
pub fn faulty_pairs() -> impl Iterator<Item = [Part<'static>; 2]> {
    let firsts = faulty().into_iter();
    firsts.flat_map(|first| faulty().map(|second| [first, second]))
}

/// Sound layouts with children that break their rules, and which fault comes first.
fn children() -> Vec<Vec<u8>> {
    let [transform, position, image, bind, status] = faulty();
    let mut samples: Vec<Vec<u8>> = faulty_pairs().map(|pair| bundle(&pair)).collect();
    let inner = bundle(&[status, image]);
    let nested = part(b"BIND", b"N", &inner);
    samples.extend([
        bundle(&[nested, transform]),
        bundle(&[transform, nested]),
        bundle(&[status, bind, nested]),
    ]);
    // A wrong pad after the faulty child: the layout comes first.
    let padded = [transform, position, image].map(|first| bundle(&[first, status]));
    samples.extend(padded.map(with_wrong_pad));
    samples.extend(lengths());
    samples
}

fn with_wrong_pad(mut content: Vec<u8>) -> Vec<u8> {
    *content.last_mut().expect("the last child's pad") = 1;
    content
}

/// Children of each type with data around the lengths of its rule.
fn lengths() -> Vec<Vec<u8>> {
    let header = Header {
        part_size: [1, 1, 1],
        ..images::p9().header
    };
    let image = [header.encode(), vec![1; 8]].concat();
    let around = |type_text: &'static [u8], lengths: &[usize]| {
        let of_length = |&length| bundle(&[part(type_text, b"A", &image[..length])]);
        lengths.iter().map(of_length).collect::<Vec<_>>()
    };
    [
        around(b"TRANSFORM", &[0, 47, 48, 49]),
        around(b"POSITION", &[0, 11, 12, 13, 23, 24, 25, 27, 28, 29]),
        around(b"IMAGE", &[0, 71, 72, 77, 78, 79]),
        around(b"STATUS", &[0, 1, 12, 48]),
        around(b"transform", &[0, 1, 47, 48]),
        around(b"BINDX", &[0, 1, 3, 4]),
    ]
    .concat()
}

/// BINDs of one to six levels, and what comes before the level that is too deep.
fn depths() -> Vec<Vec<u8>> {
    let short = part(b"TRANSFORM", b"T", &[0; 1]);
    let garbage = part(b"BIND", b"G", &[1, 2, 3]);
    let empty = part(b"BIND", b"E", &EMPTY);
    let wrong_pad = with_wrong_pad(bundle(&[garbage]));
    let deep = nest(4, &EMPTY);
    let deep = part(b"BIND", b"D", &deep);
    let mut samples: Vec<Vec<u8>> = (0..6).map(|times| nest(times, &EMPTY)).collect();
    samples.extend([
        nest(3, &[]),
        nest(3, &[1, 2, 3]),
        nest(4, &[]),
        nest(4, &[1, 2, 3]),
        nest(4, &[0; 7]),
        nest(3, &mixed()),
        nest(2, &mixed()),
        nest(3, &wrong_pad),
        nest(3, &bundle(&[short, garbage])),
        nest(3, &bundle(&[garbage, short])),
        nest(3, &bundle(&[empty, short])),
        nest(2, &bundle(&[garbage, empty])),
        bundle(&[short, deep]),
        bundle(&[deep, short]),
        bundle(&[empty, deep]),
        bundle(&[deep, garbage]),
    ]);
    samples
}

/// The content cut off before each of its bytes.
fn truncations(content: &[u8]) -> Vec<Vec<u8>> {
    let lengths = 0..content.len();
    lengths.map(|length| content[..length].to_vec()).collect()
}

#[cfg(test)]
mod tests {
    use super::{bundle, mixed, mixed_parts, nest, part, sound, truncations, Fields};
    use crate::content::parse;
    use crate::fault::{number, Fault};

    fn judged(content: &[u8]) -> u8 {
        number(&parse(b"BIND", content))
    }

    #[test]
    fn the_fields_are_those_of_the_mixed_content() {
        assert_eq!(Fields::mixed().bytes(), bundle(&mixed_parts()));
    }

    #[test]
    fn sound_samples_are_accepted() {
        assert!(sound().iter().all(|content| judged(content) == 0));
    }

    #[test]
    fn no_part_of_a_content_is_a_content() {
        assert!(truncations(&mixed()).iter().all(|cut| judged(cut) == 10));
    }

    #[test]
    fn what_comes_before_the_level_that_is_too_deep() {
        let short = part(b"TRANSFORM", b"", &[0]);
        let garbage = part(b"BIND", b"", &[1]);
        let level_4 = nest(3, &bundle(&[short, garbage]));
        assert_eq!(judged(&level_4), Fault::Length as u8);
        assert_eq!(judged(&nest(4, &[1])), Fault::Depth as u8);
        assert_eq!(judged(&nest(3, &[1])), Fault::Bind as u8);
    }
}
