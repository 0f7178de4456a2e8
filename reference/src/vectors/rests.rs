//! Fields whose text is followed by something other than zeros.

pub mod depths;
pub mod examples;
mod fields;

use super::case::Case;
use crate::content::bind::split;
use crate::random::Random;
use crate::text;
use std::ops::Range;

pub fn cases() -> Vec<Case> {
    [examples::cases(), fields::cases(), depths::cases()].concat()
}

/// TYPE and DEVICE_NAME in a header.
pub const TYPE: Range<usize> = 2..14;
pub const DEVICE_NAME: Range<usize> = 14..34;

/// What can follow the 0 that ends a text, one kind after the other: zeros, the same byte up to the
/// end, another text, and zeros up to the last byte.
pub const KINDS: [fn(&mut [u8]); 6] = [
    |rest| rest.fill(0),
    |rest| rest.fill(0x01),
    |rest| rest.fill(0xFF),
    |rest| rest.iter_mut().zip(b"Old\0name").for_each(set),
    |rest| rest.iter_mut().rev().take(1).for_each(|last| *last = 0x01),
    |rest| rest.iter_mut().rev().take(1).for_each(|last| *last = 0x80),
];

/// The kind that leaves no zero.
pub const FILLED: fn(&mut [u8]) = KINDS[2];

fn set((byte, value): (&mut u8, &u8)) {
    *byte = *value;
}

/// The bytes with what follows the text in one of their fields changed; the 0 that ends the text
/// stays.
pub fn changed(bytes: &[u8], field: Range<usize>, change: impl FnOnce(&mut [u8])) -> Vec<u8> {
    let mut bytes = bytes.to_vec();
    let field = &mut bytes[field];
    let end = text::in_field(field).len() + 1;
    change(field.get_mut(end..).unwrap_or_default());
    bytes
}

/// Where the CTYPE fields of a BIND content stand, at all levels, the outer ones before those that
/// they hold. None where its layout is not sound.
pub fn type_fields(content: &[u8]) -> Vec<Range<usize>> {
    let Some(parts) = split(content) else {
        return Vec::new();
    };
    let places = (0..parts.len()).map(|child| 2 + 20 * child);
    let mut fields: Vec<_> = places.map(|place| place..place + 12).collect();
    let padded = |data: &[u8]| data.len().next_multiple_of(2);
    let mut at = content.len() - parts.iter().map(|part| padded(part.data)).sum::<usize>();
    for part in &parts {
        if part.type_text == b"BIND" {
            let inner = type_fields(part.data).into_iter();
            fields.extend(inner.map(|field| at + field.start..at + field.end));
        }
        at += padded(part.data);
    }
    fields
}

/// The bytes with something by chance after the texts in some of these fields.
pub fn by_chance(random: &mut Random, bytes: &[u8], fields: &[Range<usize>]) -> Vec<u8> {
    let mut bytes = bytes.to_vec();
    for field in fields {
        let any = random.bytes(field.len());
        let kind = random.pick(&KINDS);
        bytes = match random.below(3) {
            0 => bytes,
            1 => changed(&bytes, field.clone(), kind),
            _ => changed(&bytes, field.clone(), |rest| {
                rest.copy_from_slice(&any[..rest.len()]);
            }),
        };
    }
    bytes
}

#[cfg(test)]
mod tests {
    use super::{by_chance, changed, type_fields, DEVICE_NAME, FILLED, KINDS, TYPE};
    use crate::message::read;
    use crate::random::Random;
    use crate::text;
    use crate::vectors::bundles::{bundle, nest, part};
    use crate::vectors::samples::Sample;

    #[test]
    fn the_kinds_of_rest() {
        let fields = KINDS.map(|kind| changed(b"(AB\0\0\0\0)", 1..7, kind));
        let expected = [
            b"(AB\0\0\0\0)",
            b"(AB\0\x01\x01\x01)",
            b"(AB\0\xFF\xFF\xFF)",
            b"(AB\0Old)",
            b"(AB\0\0\0\x01)",
            b"(AB\0\0\0\x80)",
        ];
        assert_eq!(fields, expected.map(|field| field.to_vec()));
        for full in [b"ABCD", b"ABC\0"] {
            assert_eq!(changed(full, 0..4, FILLED), full);
        }
    }

    #[test]
    fn the_places_of_the_types() {
        let inner = bundle(&[part(b"INNER", b"", b"odd"), part(b"LAST", b"", b"")]);
        let opaque = part(b"STATUS", b"", &inner);
        let content = bundle(&[opaque, part(b"BIND", b"", &inner), part(b"THIRD", b"", b"")]);
        let types = type_fields(&content).into_iter();
        let types = types.map(|field| content[field.start..field.start + 4].to_vec());
        let types: Vec<_> = types.collect();
        let expected = [b"STAT", b"BIND", b"THIR", b"INNE", b"LAST"];
        assert_eq!(types, expected.map(|text| text.to_vec()));
        assert_eq!(type_fields(&nest(4, &inner)).len(), 6);
        assert_eq!(type_fields(&content[1..]), []);
    }

    /// Whether only zeros follow the text in each of these fields.
    fn clean(bytes: &[u8], fields: &[std::ops::Range<usize>]) -> bool {
        fields.iter().all(|field| {
            let field = &bytes[field.clone()];
            let rest = &field[text::in_field(field).len()..];
            rest.iter().all(|&byte| byte == 0)
        })
    }

    /// It is accepted as it is with zeros after its texts, and written back as that.
    #[test]
    fn a_message_is_written_back_as_itself_exactly_where_it_is_clean() {
        let mut random = Random::new(7);
        let mut seen = [0; 2];
        for _ in 0..1500 {
            let mut sample = Sample::by_chance(&mut random);
            let zeros = sample.bytes();
            let fields = match &sample.type_text[..] {
                b"BIND" => type_fields(&sample.content),
                _ => Vec::new(),
            };
            sample.content = by_chance(&mut random, &sample.content, &fields);
            let stream = by_chance(&mut random, &sample.bytes(), &[TYPE, DEVICE_NAME]);
            let reading = read(sample.layout, &stream);
            let Ok(message) = reading.message else {
                let expected = read(sample.layout, &zeros).message.err();
                assert_eq!(reading.message.err(), expected);
                continue;
            };
            assert_eq!(message.encode(sample.layout), Ok(zeros.clone()));
            assert_eq!(reading.clean, stream == zeros);
            let header = clean(&stream, &[TYPE, DEVICE_NAME]);
            assert_eq!(reading.clean, header && clean(&sample.content, &fields));
            seen[usize::from(reading.clean)] += 1;
        }
        assert!(seen.iter().all(|&count| count > 200), "{seen:?}");
    }
}
