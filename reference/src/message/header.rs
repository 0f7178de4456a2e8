//! The header of a message: 58 bytes, taken apart without asking whether its texts are texts. They
//! are if the fields can be put together again. The bytes are the same then where only zeros follow
//! the texts.

use crate::cursor::Cursor;
use crate::fault::Fault;
use crate::text;

pub const LENGTH: usize = 58;

/// The largest BODY_SIZE (rule 3.3).
const LIMIT: u64 = 16_777_216;

/// The fields in their order. The version and the CRC are any.
#[derive(Clone, Copy, Debug, Default, PartialEq, Eq)]
pub struct Header<'a> {
    pub version: u16,
    pub type_text: &'a [u8],
    pub device_name: &'a [u8],
    pub time_stamp: u64,
    pub body_size: u64,
    pub crc: u64,
}

impl<'a> Header<'a> {
    /// The header at the front of a stream, or its first fault.
    pub fn parse(stream: &'a [u8]) -> Result<Self, Fault> {
        let bytes = stream.get(..LENGTH).ok_or(Fault::Short)?;
        let header = Header::take_apart(bytes).ok_or(Fault::Short)?;
        header.encode().map(|_| header)
    }

    /// Whether a stream that this was read from begins with its bytes: only zeros follow the texts
    /// there.
    pub fn is_clean(&self, stream: &[u8]) -> bool {
        self.encode().is_ok_and(|bytes| stream.starts_with(&bytes))
    }

    /// The bytes of the header, or its first fault.
    pub fn encode(&self) -> Result<Vec<u8>, Fault> {
        let bytes = self.join().ok_or(Fault::Text)?;
        self.fault_of_size().map_or(Ok(bytes), Err)
    }

    fn fault_of_size(&self) -> Option<Fault> {
        (self.body_size > LIMIT).then_some(Fault::Limit)
    }

    /// The fields put together, where the texts are texts that fit.
    fn join(&self) -> Option<Vec<u8>> {
        let type_field = text::field::<12>(self.type_text)?;
        let name_field = text::field::<20>(self.device_name)?;
        let numbers = [self.time_stamp, self.body_size, self.crc];
        let texts = [&type_field[..], &name_field].concat();
        let front = self.version.to_be_bytes().into_iter().chain(texts);
        Some(
            front
                .chain(numbers.map(u64::to_be_bytes).concat())
                .collect(),
        )
    }

    fn take_apart(bytes: &'a [u8]) -> Option<Self> {
        let mut cursor = Cursor::new(bytes);
        Some(Header {
            version: cursor.u16()?,
            type_text: text::in_field(cursor.run(12)?),
            device_name: text::in_field(cursor.run(20)?),
            time_stamp: cursor.u64()?,
            body_size: cursor.u64()?,
            crc: cursor.u64()?,
        })
    }
}

#[cfg(test)]
mod tests {
    use super::{Header, LENGTH, LIMIT};
    use crate::fault::Fault;

    fn arm() -> Header<'static> {
        Header {
            version: 7,
            type_text: b"TWELVE_BYTES",
            device_name: b"Arm",
            time_stamp: 1,
            body_size: LIMIT,
            crc: 2,
        }
    }

    #[test]
    fn a_header_is_read_as_it_is_written() {
        let bytes = arm().encode().unwrap();
        assert_eq!(bytes.len(), LENGTH);
        assert_eq!(bytes[14..18], *b"Arm\0");
        assert_eq!(bytes[41..43], [1, 0]);
        assert_eq!(Header::parse(&bytes), Ok(arm()));
        assert!(arm().is_clean(&bytes));
        assert_eq!(Header::parse(&bytes[..57]), Err(Fault::Short));
    }

    #[test]
    fn what_follows_a_text_is_no_part_of_it() {
        let bytes = arm().encode().unwrap();
        for (place, value) in [(18, b'A'), (18, 0xFF), (33, 1), (33, 0x80)] {
            let mut bytes = bytes.clone();
            bytes[place] = value;
            assert_eq!(Header::parse(&bytes), Ok(arm()));
            assert!(!arm().is_clean(&bytes));
        }
    }

    #[test]
    fn a_text_comes_before_the_size() {
        let mut bytes = arm().encode().unwrap();
        bytes[49] = 1;
        assert_eq!(Header::parse(&bytes), Err(Fault::Limit));
        bytes[33] = 0x80;
        assert_eq!(Header::parse(&bytes), Err(Fault::Limit));
        bytes[16] = 0x80;
        assert_eq!(Header::parse(&bytes), Err(Fault::Text));
    }

    #[test]
    fn a_text_too_long_comes_before_the_size() {
        let long = Header {
            device_name: &[b'A'; 21],
            body_size: LIMIT + 1,
            ..arm()
        };
        assert_eq!(long.encode(), Err(Fault::Text));
        let device_name = &[b'A'; 20];
        let full = Header {
            device_name,
            ..long
        };
        assert_eq!(full.encode(), Err(Fault::Limit));
    }
}
