//! The body of a message (rules 3.5 to 3.7): the content alone, or between an extended header and
//! the metadata.
//!
//! A body is taken apart by its sizes alone. It keeps the rule if putting the sections together
//! again, with sizes counted anew, gives the same bytes.

use super::metadata;
use crate::content;
use crate::cursor::Cursor;
use crate::fault::{smallest, Fault};

/// The version whose body is the content, and the one whose body has all sections.
const PLAIN: u16 = 1;
const EXTENDED: u16 = 2;

/// Bytes of the extended header before the further ones, in both layouts.
const FIXED: usize = 12;

/// How the first bytes of an extended header are laid out. The new layout has two sizes for the
/// metadata and no reserved word.
#[derive(Clone, Copy, Debug, PartialEq, Eq)]
pub enum Layout {
    New,
    Old,
}

impl Layout {
    pub const BOTH: [Layout; 2] = [Layout::New, Layout::Old];

    /// The layout that a number names where one is given in bytes.
    pub fn of(number: u64) -> Self {
        match number {
            1 => Layout::Old,
            _ => Layout::New,
        }
    }

    pub fn other(self) -> Self {
        match self {
            Layout::New => Layout::Old,
            Layout::Old => Layout::New,
        }
    }

    /// A number that names it.
    pub fn number(self) -> u8 {
        match self {
            Layout::New => 0,
            Layout::Old => 1,
        }
    }

    /// How a body is refused whose sizes point out sections, but which is not the same when they
    /// are put together: the metadata has two other sizes, or the reserved word is set.
    fn fault_of_front(self) -> Fault {
        match self {
            Layout::New => Fault::Metadata,
            Layout::Old => Fault::Extended,
        }
    }
}

#[derive(Clone, Copy, Debug, Default, PartialEq, Eq)]
pub struct Body<'a> {
    /// MSG_ID
    pub id: u32,
    pub further: &'a [u8],
    pub content: &'a [u8],
    pub metadata: &'a [u8],
}

impl<'a> Body<'a> {
    /// The sections, where putting them together gives the same bytes.
    pub fn split(layout: Layout, version: u16, bytes: &'a [u8]) -> Result<Self, Fault> {
        let body = Body::take_apart(layout, version, bytes).ok_or(Fault::Extended)?;
        match body.join(layout, version) {
            Err(Fault::Version) => Err(Fault::Version),
            Ok(same) if same == bytes => Ok(body),
            _ => Err(layout.fault_of_front()),
        }
    }

    /// The sections put together, where this version can have them.
    pub fn join(&self, layout: Layout, version: u16) -> Result<Vec<u8>, Fault> {
        match version {
            PLAIN => self.join_plain(),
            EXTENDED => self.join_extended(layout),
            _ => Err(Fault::Version),
        }
    }

    /// The smaller of the metadata's fault and the content's, the latter by the message's type.
    pub fn fault(&self, type_text: &[u8]) -> Option<Fault> {
        let metadata = metadata::parse(self.metadata).err();
        let content = content::parse(type_text, self.content).err();
        smallest([metadata, content])
    }

    /// How many bytes the body takes, whether it can be put together or not.
    pub fn size(&self, version: u16) -> u64 {
        let around = match version {
            EXTENDED => [FIXED, self.further.len(), self.metadata.len()],
            _ => [0; 3],
        };
        let lengths = around.into_iter().chain([self.content.len()]);
        lengths.fold(0, |sum: u64, length| sum.saturating_add(length as u64))
    }

    /// The sections that the sizes point out; the content alone where the version has no such
    /// sizes. Nothing else is asked of the bytes.
    fn take_apart(layout: Layout, version: u16, bytes: &'a [u8]) -> Option<Self> {
        if version != EXTENDED {
            let content = bytes;
            return Some(Body {
                content,
                ..Body::default()
            });
        }
        let mut cursor = Cursor::new(bytes);
        let [extended_size, first_size] = cursor.u16s()?.map(usize::from);
        let [first, second] = cursor.u32s()?;
        let (id, more) = match layout {
            Layout::New => (second, first),
            Layout::Old => (first, 0),
        };
        let further_size = extended_size.checked_sub(FIXED)?;
        let further = cursor.run(further_size as u64)?;
        let rest = cursor.rest();
        let metadata_size = first_size.checked_add(usize::try_from(more).ok()?)?;
        let content_size = rest.len().checked_sub(metadata_size)?;
        let (content, metadata) = rest.split_at(content_size);
        Some(Body {
            id,
            further,
            content,
            metadata,
        })
    }

    fn join_plain(&self) -> Result<Vec<u8>, Fault> {
        let content = self.content;
        let plain = Body {
            content,
            ..Body::default()
        };
        if *self == plain {
            Ok(content.to_vec())
        } else {
            Err(Fault::Extended)
        }
    }

    fn join_extended(&self, layout: Layout) -> Result<Vec<u8>, Fault> {
        let extended_size = fits::<u16>(FIXED + self.further.len())?.to_be_bytes();
        let front = match layout {
            Layout::New => self.new_front()?,
            Layout::Old => self.old_front()?,
        };
        let sections = [self.further, self.content, self.metadata];
        Ok([&extended_size[..], &front, &sections.concat()].concat())
    }

    /// METADATA_HEADER_SIZE, METADATA_SIZE of the keys and values, and MSG_ID.
    fn new_front(&self) -> Result<Vec<u8>, Fault> {
        let index_size = metadata::index_size(self.metadata)?;
        let index_field = fits::<u16>(index_size)?.to_be_bytes();
        let data_size = self.metadata.len().checked_sub(index_size);
        let data_field = fits::<u32>(data_size.ok_or(Fault::Metadata)?)?;
        let words = [data_field, self.id].map(u32::to_be_bytes);
        Ok([&index_field[..], &words.concat()].concat())
    }

    /// METADATA_SIZE of the whole section, MSG_ID and the reserved word.
    fn old_front(&self) -> Result<Vec<u8>, Fault> {
        let size = fits::<u16>(self.metadata.len())?.to_be_bytes();
        let words = [self.id, 0].map(u32::to_be_bytes);
        Ok([&size[..], &words.concat()].concat())
    }
}

/// A length as the number in a size field, where it fits.
fn fits<T: TryFrom<usize>>(length: usize) -> Result<T, Fault> {
    T::try_from(length).map_err(|_| Fault::Extended)
}

#[cfg(test)]
mod tests {
    use super::Layout::{New, Old};
    use super::{Body, Layout};
    use crate::fault::Fault;

    fn body<'a>(further: &'a [u8], metadata: &'a [u8]) -> Body<'a> {
        Body {
            id: 0x0102_0304,
            further,
            content: b"content",
            metadata,
        }
    }

    #[test]
    fn a_layout_is_named_by_a_number() {
        assert_eq!(
            Layout::BOTH.map(|layout| Layout::of(layout.number().into())),
            Layout::BOTH
        );
        let others = [2, 255, 257, 1 << 32 | 1, u64::MAX];
        assert!(others.iter().all(|&number| Layout::of(number) == New));
    }

    #[test]
    fn the_sections_stand_in_their_order() {
        let section = b"\0\x01\0\x01\0\x03\0\0\0\x01kv";
        let whole = body(b"further", section);
        let fronts = [
            (New, [0, 19, 0, 10, 0, 0, 0, 2, 1, 2, 3, 4]),
            (Old, [0, 19, 0, 12, 1, 2, 3, 4, 0, 0, 0, 0]),
        ];
        for (layout, front) in fronts {
            let bytes = whole.join(layout, 2).unwrap();
            assert_eq!(bytes[..12], front);
            assert_eq!(bytes[12..], [&b"furthercontent"[..], section].concat());
            assert_eq!(Body::split(layout, 2, &bytes), Ok(whole));
        }
    }

    #[test]
    fn a_plain_body_is_the_content() {
        let content = Body {
            content: b"content",
            ..Body::default()
        };
        for layout in Layout::BOTH {
            assert_eq!(content.join(layout, 1), Ok(b"content".to_vec()));
            assert_eq!(Body::split(layout, 1, b"content"), Ok(content));
            assert_eq!(body(b"", b"").join(layout, 1), Err(Fault::Extended));
            assert_eq!(content.join(layout, 0), Err(Fault::Version));
            assert_eq!(Body::split(layout, 3, b"content"), Err(Fault::Version));
        }
    }

    #[test]
    fn an_extended_header_has_at_least_12_bytes() {
        let sound = [0, 12, 0, 0, 0, 0, 0, 0, 0, 0, 0, 0];
        for layout in Layout::BOTH {
            assert_eq!(Body::split(layout, 2, &sound), Ok(Body::default()));
            assert_eq!(Body::split(layout, 2, &sound[..11]), Err(Fault::Extended));
            for (place, value) in [(1, 11), (1, 13), (3, 1)] {
                let mut bytes = sound;
                bytes[place] = value;
                assert_eq!(Body::split(layout, 2, &bytes), Err(Fault::Extended));
            }
        }
    }

    /// The last four bytes are the reserved word in the old layout.
    #[test]
    fn the_id_is_the_third_or_the_last_number() {
        let bytes = [0, 12, 0, 0, 0, 0, 0, 0, 0, 0, 0, 7];
        let id = 7;
        let with_id = Body {
            id,
            ..Body::default()
        };
        assert_eq!(Body::split(New, 2, &bytes), Ok(with_id));
        assert_eq!(Body::split(Old, 2, &bytes), Err(Fault::Extended));
        let bytes = [0, 12, 0, 0, 0, 0, 0, 7, 0, 0, 0, 0];
        assert_eq!(Body::split(New, 2, &bytes), Err(Fault::Extended));
        assert_eq!(Body::split(Old, 2, &bytes), Ok(with_id));
    }

    /// In 16 bits the sizes sum to 12, and in more to as many bytes as the body has.
    #[test]
    fn the_sum_of_the_sizes_does_not_wrap() {
        let further = [1; 65_523];
        let section = [0, 0, 2, 2, 2, 2, 2, 2, 2, 2, 2, 2, 2];
        let whole = Body {
            content: b"",
            ..body(&further, &section)
        };
        for layout in Layout::BOTH {
            let bytes = whole.join(layout, 2).unwrap();
            assert_eq!(bytes.len(), 65_548);
            assert_eq!(Body::split(layout, 2, &bytes), Ok(whole));
            for length in [12, 65_547] {
                let split = Body::split(layout, 2, &bytes[..length]);
                assert_eq!(split, Err(Fault::Extended));
            }
        }
    }

    /// Such that in 32 bits the sum of the sizes is small, or that of the two of the metadata is 0.
    #[test]
    fn the_largest_metadata_sizes_are_too_large() {
        for (index_size, data_size) in [(0, u32::MAX), (2, u32::MAX - 1), (65_535, u32::MAX)] {
            let sizes = [[0, 12], u16::to_be_bytes(index_size)].concat();
            let words = [data_size, 9].map(u32::to_be_bytes);
            let bytes = [&sizes[..], &words.concat(), &[0; 20]].concat();
            assert_eq!(Body::split(New, 2, &bytes), Err(Fault::Extended));
        }
    }

    #[test]
    fn further_bytes_longer_than_their_size_field_are_refused() {
        let bytes = [1; 65_536];
        for layout in Layout::BOTH {
            assert!(body(&bytes[..65_523], b"").join(layout, 2).is_ok());
            for length in [65_524, 65_536] {
                let long = body(&bytes[..length], b"\xFF");
                assert_eq!(long.join(layout, 2), Err(Fault::Extended));
            }
        }
        assert_eq!(body(&bytes, &bytes).size(2), 12 + 2 * 65_536 + 7);
        assert_eq!(body(&bytes, &bytes).size(1), 7);
    }

    #[test]
    fn a_long_section_fits_the_new_layout_alone() {
        let section = [0; 65_536];
        assert!(body(b"", &section[1..]).join(Old, 2).is_ok());
        assert_eq!(body(b"", &section).join(Old, 2), Err(Fault::Extended));
        let bytes = body(b"", &section).join(New, 2).unwrap();
        assert_eq!(bytes[..8], [0, 12, 0, 2, 0, 0, 0xFF, 0xFE]);
    }

    /// By the first two bytes of the section, whatever follows them.
    #[test]
    fn the_new_layout_has_at_most_8191_entries() {
        let joined = |layout, section| body(b"", section).join(layout, 2);
        assert_eq!(joined(New, b"\x20\0"), Err(Fault::Extended));
        assert_eq!(joined(New, b"\xFF\xFF\0\0"), Err(Fault::Extended));
        assert_eq!(joined(New, b"\x1F\xFF"), Err(Fault::Metadata));
        assert_eq!(joined(New, b"\xFF"), Err(Fault::Metadata));
        for section in [&b"\x20\0"[..], b"\xFF\xFF\0\0", b"\x1F\xFF", b"\xFF"] {
            assert!(joined(Old, section).is_ok());
        }
    }
}
