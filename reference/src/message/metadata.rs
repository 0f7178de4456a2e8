//! The metadata section (rules 3.8 to 3.11): keys, and values with their encodings.
//!
//! As for a BIND, a section is taken apart by its sizes alone, and keeps the rule if putting the
//! entries together again gives the same bytes.

use crate::cursor::Cursor;
use crate::fault::Fault;
use crate::text::is_text;

#[derive(Clone, Copy, Debug, PartialEq, Eq)]
pub struct Entry<'a> {
    pub key: &'a [u8],
    pub encoding: u16,
    pub value: &'a [u8],
}

/// An entry, and the place of its value in the section.
#[derive(Clone, Copy, Debug, PartialEq, Eq)]
pub struct Found<'a> {
    pub entry: Entry<'a>,
    pub at: usize,
}

/// The entries of a section; none of a section of no bytes, which is no section.
pub fn parse(section: &[u8]) -> Result<Vec<Entry<'_>>, Fault> {
    if section.is_empty() {
        return Ok(Vec::new());
    }
    split(section).ok_or(Fault::Metadata)
}

/// How many bytes of a section come before the keys and values, by its count alone: none of a
/// section of no bytes.
pub fn index_size(section: &[u8]) -> Result<usize, Fault> {
    if section.is_empty() {
        return Ok(0);
    }
    let count = Cursor::new(section).u16().ok_or(Fault::Metadata)?;
    Ok(2 + 8 * usize::from(count))
}

/// The first entry of a key.
pub fn find<'a>(section: &'a [u8], key: &[u8]) -> Result<Found<'a>, Fault> {
    let entries = parse(section)?;
    let mut keys = entries.iter().map(|entry| entry.key);
    let number = keys.position(|other| other == key).ok_or(Fault::NotFound)?;
    let entry = entries[number];
    // Keys and values are the end of the section, so the value's place is counted from there.
    let lengths = entries[number..].iter().map(data_length);
    let at = section.len() - lengths.sum::<usize>() + key.len();
    Ok(Found { entry, at })
}

/// The section of these entries, or nothing where their number, a key or a size does not fit.
pub fn join(entries: &[Entry]) -> Option<Vec<u8>> {
    let mut headers = u16::try_from(entries.len()).ok()?.to_be_bytes().to_vec();
    let mut data = Vec::new();
    for entry in entries {
        let key = Some(entry.key).filter(|key| !key.is_empty() && is_text(key))?;
        headers.extend(u16::try_from(key.len()).ok()?.to_be_bytes());
        headers.extend(entry.encoding.to_be_bytes());
        headers.extend(u32::try_from(entry.value.len()).ok()?.to_be_bytes());
        data.extend([key, entry.value].concat());
    }
    Some([headers, data].concat())
}

fn split(section: &[u8]) -> Option<Vec<Entry<'_>>> {
    let entries = take_apart(section)?;
    (join(&entries)? == section).then_some(entries)
}

/// The entries that the sizes point out. Nothing else is asked of the bytes.
fn take_apart(section: &[u8]) -> Option<Vec<Entry<'_>>> {
    let mut cursor = Cursor::new(section);
    let count = cursor.u16()?;
    let headers = (0..count).map(|_| Some((cursor.u16()?, cursor.u16()?, cursor.u32()?)));
    let headers = headers.collect::<Option<Vec<_>>>()?;
    let entries = headers.into_iter().map(|(key_size, encoding, value_size)| {
        Some(Entry {
            key: cursor.run(key_size.into())?,
            encoding,
            value: cursor.run(value_size.into())?,
        })
    });
    entries.collect()
}

fn data_length(entry: &Entry) -> usize {
    entry.key.len() + entry.value.len()
}

#[cfg(test)]
mod tests {
    use super::{find, index_size, join, parse, Entry};
    use crate::fault::Fault;

    fn entry<'a>(key: &'a [u8], value: &'a [u8]) -> Entry<'a> {
        let encoding = 3;
        Entry {
            key,
            encoding,
            value,
        }
    }

    #[test]
    fn no_section_and_a_section_of_no_entries() {
        assert_eq!(parse(&[]), Ok(Vec::new()));
        assert_eq!(parse(&[0, 0]), Ok(Vec::new()));
        assert_eq!(parse(&[0]), Err(Fault::Metadata));
        assert_eq!(parse(&[0, 0, 0]), Err(Fault::Metadata));
        assert_eq!(parse(&[0, 1]), Err(Fault::Metadata));
        assert_eq!(find(&[], b""), Err(Fault::NotFound));
    }

    #[test]
    fn the_size_of_the_index_goes_by_the_count() {
        assert_eq!(index_size(&[]), Ok(0));
        assert_eq!(index_size(&[0]), Err(Fault::Metadata));
        assert_eq!(index_size(&[0, 0, 9]), Ok(2));
        assert_eq!(index_size(&[0x1F, 0xFF]), Ok(65_530));
        assert_eq!(index_size(&[0xFF, 0xFF]), Ok(524_282));
    }

    #[test]
    fn a_section_is_read_as_it_is_written() {
        let entries = [entry(b"A", b""), entry(b"\x01\x7F", b"\0\xFF")];
        let section = join(&entries).unwrap();
        let headers = [0, 2, 0, 1, 0, 3, 0, 0, 0, 0, 0, 2, 0, 3, 0, 0, 0, 2];
        assert_eq!(section[..18], headers);
        assert_eq!(section[18..], *b"A\x01\x7F\0\xFF");
        assert_eq!(parse(&section), Ok(entries.to_vec()));
    }

    #[test]
    fn no_part_of_a_section_is_a_section() {
        let section = join(&[entry(b"A", b"one"), entry(b"B", b"two")]).unwrap();
        for length in 1..section.len() {
            assert_eq!(parse(&section[..length]), Err(Fault::Metadata));
        }
        let longer = [&section[..], &[0]].concat();
        assert_eq!(parse(&longer), Err(Fault::Metadata));
    }

    #[test]
    fn keys_are_texts_of_at_least_one_byte() {
        for key in [&b""[..], b"\0", b"A\x80"] {
            assert_eq!(join(&[entry(key, b"value")]), None);
        }
        assert_eq!(parse(b"\0\x01\0\0\0\x03\0\0\0\x01v"), Err(Fault::Metadata));
    }

    #[test]
    fn sizes_that_sum_to_a_small_number_are_refused() {
        let mut section = join(&[entry(b"A", b""), entry(b"B", b"")]).unwrap();
        section[6] = 0x80;
        section[14] = 0x80;
        assert_eq!(parse(&section), Err(Fault::Metadata));
    }

    #[test]
    fn the_first_of_equal_keys_is_found() {
        let entries = [entry(b"AB", b"1"), entry(b"A", b"23"), entry(b"A", b"4")];
        let section = join(&entries).unwrap();
        let found = find(&section, b"A").unwrap();
        assert_eq!(found.entry.value, b"23");
        assert!(section[found.at..].starts_with(b"23A4"));
        assert_eq!(find(&section, b"B"), Err(Fault::NotFound));
        assert_eq!(find(&section[1..], b"A"), Err(Fault::Metadata));
    }
}
