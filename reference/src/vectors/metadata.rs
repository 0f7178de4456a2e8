//! Cases of metadata sections: their number, and the value of a key.

use super::case::Case;
use super::trees;
use crate::fault::number;
use crate::message::metadata::{find, join, parse, Entry};
use crate::random::Random;

const SEED: u64 = 5;
const SECTIONS: usize = 120;

pub fn cases() -> Vec<Case> {
    let mut random = Random::new(SEED);
    let every_sample = samples().into_iter();
    let every_sample = every_sample.map(|section| value_case(&section, b"A"));
    let cases = every_sample.chain(keys()).chain(many_entries());
    cases.chain(random_cases(&mut random)).collect()
}

pub fn value_case(section: &[u8], key: &[u8]) -> Case {
    let found = find(section, key);
    let (encoding, at, value) = match &found {
        Ok(found) => (found.entry.encoding, found.at, found.entry.value),
        Err(_) => (0, 0, &[][..]),
    };
    Case::of_kind('D')
        .given(section)
        .given(key)
        .number(number(&parse(section)))
        .number(number(&found))
        .number(encoding)
        .number(at)
        .number(value.len())
        .bytes(value)
}

/// A section whose values are US-ASCII.
pub fn section(entries: &[(&[u8], &[u8])]) -> Vec<u8> {
    let entries = entries.iter().map(|&(key, value)| entry(key, 3, value));
    whole(&entries.collect::<Vec<_>>())
}

/// As many bytes of a section, sound or not, as its count says that come before the keys and
/// values.
pub fn index_size(section: &[u8]) -> usize {
    let count = section
        .first_chunk()
        .map(|&count| u16::from_be_bytes(count));
    let size = 2 + 8 * usize::from(count.unwrap_or(0));
    size.min(section.len())
}

/// So many entries that the size of their index takes both bytes of its field.
pub fn many() -> Vec<u8> {
    section(&[(&b"A"[..], &b""[..]); 300])
}

fn entry<'a>(key: &'a [u8], encoding: u16, value: &'a [u8]) -> Entry<'a> {
    Entry {
        key,
        encoding,
        value,
    }
}

fn whole(entries: &[Entry]) -> Vec<u8> {
    join(entries).expect("the entries fit a section")
}

/// No section, or one of a few entries.
pub fn by_chance(random: &mut Random) -> Vec<u8> {
    if random.below(4) == 0 {
        return Vec::new();
    }
    let keys: [&[u8]; 5] = [b"A", b"B", b"AB", b"Arm", b"\x01\x7F"];
    let values = (0..random.below(5)).map(|_| {
        let length = random.below(7);
        random.bytes(length)
    });
    let values: Vec<Vec<u8>> = values.collect();
    let mut of_value = |value| entry(random.pick(&keys), random.pick(&[3, 106, 0xFF00]), value);
    let entries = values.iter().map(|value| of_value(value));
    whole(&entries.collect::<Vec<_>>())
}

/// Every sample that is not made by chance.
pub fn samples() -> Vec<Vec<u8>> {
    let mixed = Fields::mixed().bytes();
    let cuts = (0..mixed.len()).map(|length| mixed[..length].to_vec());
    let samples = [sound(), counts(), key_sizes(), value_sizes(), data()];
    samples.concat().into_iter().chain(cuts).collect()
}

/// Accepted: keys and values that are as short as can be, long ones, and every byte they may have.
fn sound() -> Vec<Vec<u8>> {
    let key: Vec<u8> = (1..=127).collect();
    let value: Vec<u8> = (0..=255).collect();
    vec![
        vec![],
        vec![0, 0],
        section(&[(b"A", b"")]),
        section(&[(b"A", b"one")]),
        section(&[(b"A", b"one"), (b"A", b"two")]),
        section(&[(b"B", b"one"), (b"A", b""), (b"A", b"two")]),
        section(&[(b"AA", b"one"), (b"a", b"two"), (b"A", b"three")]),
        section(&[(&key, &value)]),
        section(&[(b"\x01", b"A"), (b"\x7F", b"\0")]),
        whole(&[entry(b"A", 0, b"one"), entry(b"A", 3, b"one")]),
        whole(&[entry(b"A", 0xFFFF, b"\xFF")]),
        whole(&[entry(b"A", 0x8001, b"A\0")]),
        Fields::mixed().bytes(),
    ]
}

/// A section field by field, so that each can be made wrong.
#[derive(Clone)]
struct Fields {
    count: u16,
    key_sizes: Vec<u16>,
    encodings: Vec<u16>,
    value_sizes: Vec<u32>,
    data: Vec<u8>,
}

impl Fields {
    /// Equal keys, a value of no bytes, one that is no text.
    fn mixed() -> Self {
        Fields {
            count: 4,
            key_sizes: vec![2, 1, 3, 1],
            encodings: vec![3, 106, 0xFFFF, 0],
            value_sizes: vec![3, 0, 2, 4],
            data: b"ABoneAArm\0\xFFAtwo!".to_vec(),
        }
    }

    fn bytes(&self) -> Vec<u8> {
        let sizes = self.key_sizes.iter().zip(&self.value_sizes);
        let headers = sizes.zip(&self.encodings);
        let headers = headers.flat_map(|((key_size, value_size), encoding)| {
            let front = [key_size.to_be_bytes(), encoding.to_be_bytes()].concat();
            [front, value_size.to_be_bytes().to_vec()].concat()
        });
        let count = self.count.to_be_bytes();
        count
            .into_iter()
            .chain(headers)
            .chain(self.data.clone())
            .collect()
    }
}

/// The mixed section after some changes of its fields.
fn with_changes<const N: usize>(changes: [fn(&mut Fields); N]) -> Vec<Vec<u8>> {
    changes.iter().map(with_change).collect()
}

fn with_change(change: impl FnOnce(&mut Fields)) -> Vec<u8> {
    let mut fields = Fields::mixed();
    change(&mut fields);
    fields.bytes()
}

fn counts() -> Vec<Vec<u8>> {
    let whole = [
        vec![0],
        vec![1],
        vec![0, 1],
        vec![1, 0],
        vec![0; 3],
        vec![0; 10],
        vec![255; 2],
        vec![255; 10],
        [&[0, 1][..], &[0; 7]].concat(),
        [&[0, 1][..], &[0; 8]].concat(),
    ];
    let counts = [0, 1, 2, 3, 5, 6, 0x0400, 0x8004, 65_535];
    let changed = counts.map(|count| with_change(|fields| fields.count = count));
    whole.into_iter().chain(changed).collect()
}

fn key_sizes() -> Vec<Vec<u8>> {
    let sizes = (0..4).flat_map(|place| {
        let sizes = [0, 1, 2, 3, 4, 20, 0x0101, 0x8001, 65_535];
        sizes.map(|size| with_change(|fields| fields.key_sizes[place] = size))
    });
    // A byte more for the key and one less for the value, or the other way.
    let shifted = with_changes([
        |fields| (fields.key_sizes[0], fields.value_sizes[0]) = (3, 2),
        |fields| (fields.key_sizes[0], fields.value_sizes[0]) = (1, 4),
        |fields| (fields.key_sizes[0], fields.value_sizes[0]) = (0, 5),
        |fields| (fields.key_sizes[2], fields.value_sizes[2]) = (4, 1),
        |fields| (fields.key_sizes[3], fields.value_sizes[3]) = (5, 0),
        |fields| fields.key_sizes.swap(0, 2),
    ]);
    sizes.chain(shifted).collect()
}

/// Half of the numbers of 32 bits: twice as much wraps to 0.
const HALF: u32 = 1 << 31;

/// Sizes that are too long or too short, and such that sums of them wrap.
fn value_sizes() -> Vec<Vec<u8>> {
    let close = (0..4).flat_map(|place| {
        let changes = [-2, -1, 1, 2, i32::MAX, i32::MIN];
        changes.map(|change| {
            with_change(|fields| {
                let size = &mut fields.value_sizes[place];
                *size = size.wrapping_add_signed(change);
            })
        })
    });
    let far = with_changes([
        |fields| fields.value_sizes[0] = u32::MAX,
        |fields| fields.value_sizes[0] = u32::MAX - 1,
        |fields| fields.value_sizes[0] = u32::MAX - 4,
        |fields| fields.value_sizes[3] = u32::MAX,
        |fields| fields.value_sizes[3] = u32::MAX - 16,
        |fields| fields.value_sizes = vec![HALF + 3, HALF, 2, 4],
        |fields| fields.value_sizes = vec![3, HALF, 2, HALF + 4],
        |fields| fields.value_sizes = [3, 0, 2, 4].map(|size| HALF / 2 + size).to_vec(),
        |fields| fields.value_sizes = vec![3, u32::MAX, 3, 4],
        |fields| fields.value_sizes = vec![3, u32::MAX - 5, 8, 4],
        |fields| fields.value_sizes = vec![3, 0, 0x0001_0002, 4],
        |fields| fields.value_sizes = vec![0x0001_0003, 0, 2, 4],
        |fields| fields.value_sizes = vec![0x0100_0003, 0, 2, 4],
        |fields| fields.value_sizes.swap(0, 3),
        |fields| fields.value_sizes = vec![9, 0, 0, 0],
        |fields| fields.value_sizes = vec![0; 4],
    ]);
    close.chain(far).collect()
}

/// Key bytes on both sides of the rule, values that are any, and bytes after the last one.
fn data() -> Vec<Vec<u8>> {
    let places = 0..Fields::mixed().data.len();
    let bytes = places.flat_map(|place| {
        let values = [0, 1, 127, 128, 255];
        values.map(|value| with_change(|fields| fields.data[place] = value))
    });
    let lengths = with_changes([
        |fields| fields.data.push(0),
        |fields| fields.data.push(b'A'),
        |fields| fields.data.extend([0; 2]),
        |fields| fields.data.extend(b"A\0\x03\0\0\0\0"),
        |fields| fields.data.truncate(12),
        |fields| fields.data.clear(),
        |fields| fields.data.insert(0, b'A'),
    ]);
    bytes.chain(lengths).collect()
}

/// Keys that are there, the first of equal ones, parts of them, and what can be no key.
fn keys() -> Vec<Case> {
    let full: Vec<u8> = (1..=127).collect();
    let keys: [&[u8]; 15] = [
        b"", b"B", b"AB", b"AA", b"Arm", b"arm", b"Ar", b"Aone", b"A\0", b"\0", b"\x01", b"\x7F",
        b"\x80", b"\xFF", &full,
    ];
    let of_section = |section: &Vec<u8>| keys.map(|key| value_case(section, key));
    sound().iter().flat_map(of_section).collect()
}

/// A long section, sound and with a fault in its last key, looked up at both ends.
fn many_entries() -> Vec<Case> {
    let mut entries = vec![entry(b"A", 3, b""); 99];
    entries.push(entry(b"B", 4, b"last"));
    let sound = whole(&entries);
    let mut broken = sound.clone();
    broken[2 + 8 * 100 + 99] = 128;
    let sections = [sound, broken];
    let keys: [&[u8]; 3] = [b"A", b"B", b"C"];
    let of_section = |section: &Vec<u8>| keys.map(|key| value_case(section, key));
    sections.iter().flat_map(of_section).collect()
}

fn random_cases(random: &mut Random) -> Vec<Case> {
    let mut cases = Vec::new();
    for _ in 0..SECTIONS {
        let section = by_chance(random);
        cases.push(value_case(&section, random.pick(&trees::NAMES)));
        if !section.is_empty() {
            let damaged = trees::damaged(random, &section);
            cases.push(value_case(&damaged, random.pick(&trees::NAMES)));
        }
    }
    cases
}

#[cfg(test)]
mod tests {
    use super::{index_size, sound, Fields};
    use crate::message::metadata::{find, parse};

    #[test]
    fn the_fields_are_those_of_the_mixed_section() {
        let section = Fields::mixed().bytes();
        let found = find(&section, b"Arm").unwrap();
        assert_eq!(found.entry.value, b"\0\xFF");
        assert_eq!(parse(&section).unwrap().len(), 4);
    }

    #[test]
    fn the_index_is_no_longer_than_the_section() {
        assert_eq!(index_size(&Fields::mixed().bytes()), 2 + 8 * 4);
        let short: [&[u8]; 4] = [&[], &[9], &[0, 0], &[0, 1, 0]];
        assert_eq!(short.map(index_size), [0, 1, 2, 3]);
    }

    #[test]
    fn sound_samples_are_accepted() {
        assert!(sound().iter().all(|section| parse(section).is_ok()));
    }
}
