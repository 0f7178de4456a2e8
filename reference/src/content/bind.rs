//! The layout of a BIND content (rules 4.9 to 4.12): its children's types, names and data, whatever
//! these hold.
//!
//! A content is taken apart without asking whether its fields agree. It keeps the rule if putting
//! the parts together again gives the same bytes but for what follows the text in a CTYPE field.

use crate::cursor::Cursor;
use crate::text;

/// Of the CTYPE field, and of the header of a child.
const TYPE_LENGTH: usize = 12;
const HEADER_LENGTH: usize = 20;

/// A child, as parts of the content or as given to a writer.
#[derive(Clone, Copy, Debug, PartialEq, Eq)]
pub struct Part<'a> {
    pub type_text: &'a [u8],
    pub name: &'a [u8],
    pub data: &'a [u8],
}

/// The children of a content, or nothing where it breaks the layout's rule.
pub fn split(content: &[u8]) -> Option<Vec<Part<'_>>> {
    let parts = take_apart(content)?;
    (join(&parts)? == with_clear_types(content, parts.len())).then_some(parts)
}

/// The content with zeros after the texts in so many CTYPE fields.
fn with_clear_types(content: &[u8], count: usize) -> Vec<u8> {
    let mut content = content.to_vec();
    for header in content[2..].chunks_mut(HEADER_LENGTH).take(count) {
        text::clear_rest(&mut header[..TYPE_LENGTH]);
    }
    content
}

/// The content of these children, or nothing where one of their texts, the count or the table does
/// not fit.
pub fn join(parts: &[Part]) -> Option<Vec<u8>> {
    let count = u16::try_from(parts.len()).ok()?;
    let mut headers = Vec::new();
    let mut table = Vec::new();
    let mut data = Vec::new();
    for part in parts {
        headers.extend(text::field::<TYPE_LENGTH>(part.type_text)?);
        headers.extend(u64::try_from(part.data.len()).ok()?.to_be_bytes());
        table.extend(Some(part.name).filter(|name| text::is_text(name))?);
        table.push(0);
        data.extend(part.data);
        fill_word(&mut data);
    }
    fill_word(&mut table);
    let table_size = u16::try_from(table.len()).ok()?;
    let sizes = [count.to_be_bytes(), table_size.to_be_bytes()];
    Some([&sizes[0][..], &headers, &sizes[1], &table, &data].concat())
}

/// The parts that the sizes point out. Nothing else is asked of the bytes.
fn take_apart(content: &[u8]) -> Option<Vec<Part<'_>>> {
    let mut cursor = Cursor::new(content);
    let count = cursor.u16()?;
    let headers = (0..count).map(|_| Some((cursor.run(TYPE_LENGTH as u64)?, cursor.u64()?)));
    let headers = headers.collect::<Option<Vec<_>>>()?;
    let table_size = cursor.u16()?;
    let mut names = cursor.run(table_size.into())?.split(|&byte| byte == 0);
    let parts = headers.into_iter().map(|(field, size)| {
        let part = Part {
            type_text: text::in_field(field),
            name: names.next()?,
            data: cursor.run(size)?,
        };
        cursor.run(size % 2)?;
        Some(part)
    });
    parts.collect()
}

/// One 0 byte where the number of bytes is odd.
fn fill_word(bytes: &mut Vec<u8>) {
    bytes.resize(bytes.len().next_multiple_of(2), 0);
}

#[cfg(test)]
mod tests {
    use super::{join, split, Part};

    fn one_child<'a>(name: &'a [u8], data: &'a [u8]) -> [Part<'a>; 1] {
        let type_text = b"TRANSFORM";
        [Part {
            type_text,
            name,
            data,
        }]
    }

    #[test]
    fn p7_no_children() {
        assert_eq!(join(&[]), Some(vec![0, 0, 0, 0]));
        assert_eq!(split(&[0, 0, 0, 0]), Some(Vec::new()));
        assert_eq!(split(&[0, 0, 0, 2, 0, 0]), None);
        assert_eq!(split(&[]), None);
    }

    #[test]
    fn p8_one_transform_named_a_or_ab() {
        assert_eq!(join(&one_child(b"A", &[0; 48])).unwrap().len(), 74);
        assert_eq!(join(&one_child(b"AB", &[0; 48])).unwrap().len(), 76);
    }

    #[test]
    fn an_empty_name_takes_its_zero_and_the_pad() {
        let content = join(&one_child(b"", b"")).unwrap();
        assert_eq!(content[22..], [0, 2, 0, 0]);
        assert_eq!(split(&content), Some(one_child(b"", b"").to_vec()));
    }

    #[test]
    fn odd_data_is_padded_the_last_too() {
        let content = join(&one_child(b"A", &[7])).unwrap();
        assert_eq!(content[content.len() - 2..], [7, 0]);
        assert_eq!(split(&content[..content.len() - 1]), None);
        let longer = [&content[..], &[0]].concat();
        assert_eq!(split(&longer), None);
    }

    #[test]
    fn what_follows_the_text_of_a_type_is_any() {
        let two = [one_child(b"A", b"1"), one_child(b"", b"2")].concat();
        let content = join(&two).unwrap();
        for (place, value) in [(12, 1), (13, 0xFF), (32, b'A'), (33, 0x80)] {
            let mut content = content.clone();
            content[place] = value;
            assert_eq!(split(&content), Some(two.clone()));
        }
        for place in [10, 11, 31, 44, 47, 49] {
            let mut content = content.clone();
            content[place] = 0x80;
            assert_eq!(split(&content), None, "{place}");
        }
    }

    #[test]
    fn texts_that_do_not_fit_are_refused() {
        let parts = |type_text, name| {
            [Part {
                type_text,
                name,
                data: &[],
            }]
        };
        assert!(join(&parts(b"TWELVE_BYTES", b"\x01\x7F")).is_some());
        assert!(join(&parts(b"THIRTEEN_BYTE", b"")).is_none());
        assert!(join(&parts(b"A\x80", b"")).is_none());
        assert!(join(&parts(b"A", b"\0")).is_none());
    }

    #[test]
    fn the_table_takes_65_534_bytes_at_the_most() {
        let name = vec![1; 65_534];
        assert!(join(&one_child(&name[..65_533], b"")).is_some());
        assert!(join(&one_child(&name, b"")).is_none());
    }

    #[test]
    fn sizes_that_sum_to_a_small_number_are_refused() {
        let two = [one_child(b"", b""), one_child(b"", b"")].concat();
        let mut content = join(&two).unwrap();
        content[14] = 0x80;
        content[34] = 0x80;
        assert_eq!(split(&content), None);
    }
}
