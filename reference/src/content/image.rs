//! IMAGE (rules 4.5 to 4.8): a header, then the pixels of the part of the image that is sent.

use crate::cursor::Cursor;
use crate::fault::Fault;

/// The fields of rule 4.5, in its order; each triple runs over the directions i, j, k.
#[derive(Clone, Debug, PartialEq, Eq, Default)]
pub struct Header {
    /// V, any number.
    pub version: u16,
    /// T, the number of components.
    pub components: u8,
    /// S
    pub scalar_type: u8,
    /// E
    pub endian: u8,
    /// O
    pub coordinate: u8,
    /// RI, RJ, RK
    pub size: [u16; 3],
    /// The vectors T, S, N and P.
    pub vectors: [[u32; 3]; 4],
    /// DI, DJ, DK
    pub part_offset: [u16; 3],
    /// DRI, DRJ, DRK
    pub part_size: [u16; 3],
}

impl Header {
    fn parse(cursor: &mut Cursor) -> Option<Self> {
        Some(Header {
            version: cursor.u16()?,
            components: cursor.u8()?,
            scalar_type: cursor.u8()?,
            endian: cursor.u8()?,
            coordinate: cursor.u8()?,
            size: cursor.u16s()?,
            vectors: [
                cursor.u32s()?,
                cursor.u32s()?,
                cursor.u32s()?,
                cursor.u32s()?,
            ],
            part_offset: cursor.u16s()?,
            part_size: cursor.u16s()?,
        })
    }

    pub fn encode(&self) -> Vec<u8> {
        let kinds = [
            self.components,
            self.scalar_type,
            self.endian,
            self.coordinate,
        ];
        let triples = |triple: [u16; 3]| triple.into_iter().flat_map(u16::to_be_bytes);
        let vectors = self.vectors.into_iter().flatten();
        let fields = self.version.to_be_bytes().into_iter().chain(kinds);
        fields
            .chain(triples(self.size))
            .chain(vectors.flat_map(u32::to_be_bytes))
            .chain(triples(self.part_offset))
            .chain(triples(self.part_size))
            .collect()
    }

    /// How many bytes the pixels take, or nothing where the header breaks its rule.
    pub fn pixel_bytes(&self) -> Option<u64> {
        let choices = [self.endian, self.coordinate];
        let sound = self.components > 0
            && choices.iter().all(|choice| (1..=2).contains(choice))
            && (0..3).all(|direction| self.part_lies_within(direction));
        let scalars = self.part_size.map(u64::from).iter().product::<u64>();
        let scalar_bytes = self.scalar_bytes()?;
        sound.then_some(u64::from(self.components) * scalar_bytes * scalars)
    }

    fn part_lies_within(&self, direction: usize) -> bool {
        let offset = u32::from(self.part_offset[direction]);
        let length = u32::from(self.part_size[direction]);
        let whole = u32::from(self.size[direction]);
        length > 0 && whole > 0 && offset + length <= whole
    }

    fn scalar_bytes(&self) -> Option<u64> {
        match self.scalar_type {
            2 | 3 => Some(1),
            4 | 5 => Some(2),
            6 | 7 | 10 => Some(4),
            11 => Some(8),
            _ => None,
        }
    }
}

#[derive(Clone, Debug, PartialEq, Eq)]
pub struct Image {
    pub header: Header,
    pub pixels: Vec<u8>,
}

impl Image {
    /// Of any header and pixels, where they keep the rule.
    pub fn new(header: Header, pixels: &[u8]) -> Result<Self, Fault> {
        let length = u64::try_from(pixels.len()).expect("a length fits 64 bits");
        if header.pixel_bytes() != Some(length) {
            return Err(Fault::Image);
        }
        let pixels = pixels.to_vec();
        Ok(Image { header, pixels })
    }

    pub fn parse(bytes: &[u8]) -> Result<Self, Fault> {
        let mut cursor = Cursor::new(bytes);
        let header = Header::parse(&mut cursor).ok_or(Fault::Image)?;
        Image::new(header, cursor.rest())
    }

    pub fn encode(&self) -> Vec<u8> {
        [self.header.encode(), self.pixels.clone()].concat()
    }
}

#[cfg(test)]
mod tests {
    use super::{Header, Image};
    use crate::fault::Fault;

    /// P9 of rule 8.1, with DI 1 and RI 3.
    fn p9() -> Header {
        Header {
            components: 3,
            scalar_type: 5,
            endian: 1,
            coordinate: 1,
            size: [3, 2, 1],
            part_offset: [1, 0, 0],
            part_size: [2, 2, 1],
            ..Header::default()
        }
    }

    #[test]
    fn p9_has_96_bytes() {
        let image = Image::new(p9(), &[7; 24]).unwrap();
        let bytes = image.encode();
        assert_eq!(bytes.len(), 96);
        assert_eq!(Image::parse(&bytes), Ok(image));
        assert_eq!(Image::parse(&bytes[..95]), Err(Fault::Image));
        assert_eq!(
            Image::parse(&[&bytes[..], &[0]].concat()),
            Err(Fault::Image)
        );
    }

    #[test]
    fn p9_with_ri_2_is_refused() {
        let header = Header {
            size: [2, 2, 1],
            ..p9()
        };
        assert_eq!(Image::new(header, &[7; 24]), Err(Fault::Image));
    }

    #[test]
    fn offset_and_length_are_added_beyond_16_bits() {
        let header = Header {
            size: [65_535, 2, 1],
            part_offset: [65_534, 0, 0],
            ..p9()
        };
        assert_eq!(header.pixel_bytes(), None);
    }

    #[test]
    fn fewer_than_72_bytes_are_no_header() {
        for length in 0..72 {
            assert_eq!(Image::parse(&vec![1; length]), Err(Fault::Image));
        }
    }
}
