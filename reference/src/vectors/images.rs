//! Sample images, on both sides of each limit of the rule.

use crate::content::image::Header;

/// A header with as many bytes of pixels; the two may not go together.
#[derive(Clone)]
pub struct Sample {
    pub header: Header,
    pub pixels: Vec<u8>,
}

impl Sample {
    fn new(header: &Header, length: usize) -> Self {
        let pixels = (0..=255).cycle().take(length).collect();
        let header = header.clone();
        Sample { header, pixels }
    }

    pub fn bytes(&self) -> Vec<u8> {
        [&self.header.encode()[..], &self.pixels].concat()
    }
}

/// P9: three components of two bytes, 2 x 2 x 1 of 3 x 2 x 1, 24 bytes of pixels.
pub fn p9() -> Sample {
    let header = Header {
        version: 0xFFFE,
        components: 3,
        scalar_type: 5,
        endian: 1,
        coordinate: 2,
        size: [3, 2, 1],
        vectors: [
            [0x3F80_0000, 0, 0x8000_0000],
            [0x7FC0_0001, 0xFFC0_0000, 0x7F80_0001],
            [0x7F80_0000, 0xFF80_0000, 1],
            [0xC248_0000, 0x0102_0304, 0xFFFF_FFFF],
        ],
        part_offset: [1, 0, 0],
        part_size: [2, 2, 1],
    };
    Sample::new(&header, 24)
}

/// One component of one byte, and a part of one pixel, so that any field can be changed alone.
fn single() -> Header {
    Header {
        components: 1,
        scalar_type: 2,
        size: [1, 1, 1],
        part_offset: [0, 0, 0],
        part_size: [1, 1, 1],
        ..p9().header
    }
}

pub fn samples() -> Vec<Sample> {
    [
        lengths(),
        components(),
        scalar_types(),
        choices(),
        sizes(),
        offsets(),
        large_products(),
    ]
    .concat()
}

/// P9 with RI 3 and 2, and with other lengths of the pixels.
fn lengths() -> Vec<Sample> {
    let header = p9().header;
    let mut narrow = header.clone();
    narrow.size[0] = 2;
    let others = [0, 1, 12, 22, 23, 25, 26, 48];
    let mut samples = vec![p9(), Sample::new(&narrow, 24)];
    samples.extend(others.map(|length| Sample::new(&header, length)));
    samples
}

fn components() -> Vec<Sample> {
    let counts = [0, 1, 2, 127, 128, 255];
    let of_count = |count: u8| {
        let header = Header {
            components: count,
            ..single()
        };
        let exact = usize::from(count);
        [exact, exact + 1].map(|length| Sample::new(&header, length))
    };
    counts.into_iter().flat_map(of_count).collect()
}

/// Each scalar type with pixels of 1, 2, 4 and 8 bytes.
fn scalar_types() -> Vec<Sample> {
    let of_type = |scalar_type| {
        let header = Header {
            scalar_type,
            ..single()
        };
        [1, 2, 4, 8].map(|length| Sample::new(&header, length))
    };
    (0..=13).chain([255]).flat_map(of_type).collect()
}

fn choices() -> Vec<Sample> {
    let values = [0, 1, 2, 3, 255];
    let of_value = |value| {
        let endian = Header {
            endian: value,
            ..single()
        };
        let coordinate = Header {
            coordinate: value,
            ..single()
        };
        [endian, coordinate].map(|header| Sample::new(&header, 1))
    };
    values.into_iter().flat_map(of_value).collect()
}

/// Sizes of 0 in each direction, of the image, of its part, and of both.
fn sizes() -> Vec<Sample> {
    let zeros = |direction: usize| {
        let mut whole = single();
        whole.size[direction] = 0;
        let mut part = single();
        part.part_size[direction] = 0;
        let mut both = whole.clone();
        both.part_size[direction] = 0;
        let pixels = [(&whole, 1), (&part, 0), (&part, 1), (&both, 0)];
        pixels.map(|(header, length)| Sample::new(header, length))
    };
    (0..3).flat_map(zeros).collect()
}

/// Parts that end at the image's end, before and after it; sums that pass 16 bits.
fn offsets() -> Vec<Sample> {
    let cases = [
        (5, 2, 2),
        (5, 3, 2),
        (5, 4, 2),
        (5, 5, 1),
        (5, 0, 5),
        (5, 0, 6),
        (1, 65_535, 1),
        (1, 65_535, 2),
        (65_535, 65_534, 1),
        (65_535, 65_534, 2),
        (65_535, 65_535, 1),
        (3, 65_534, 4),
    ];
    let in_direction = |direction: usize| {
        cases.map(|(whole, offset, length)| {
            let mut header = single();
            header.size[direction] = whole;
            header.part_offset[direction] = offset;
            header.part_size[direction] = length;
            Sample::new(&header, usize::from(length))
        })
    };
    (0..3).flat_map(in_direction).collect()
}

/// Products that pass 16 and 32 bits, with the pixels that a wrapped product would ask for.
fn large_products() -> Vec<Sample> {
    let of_part = |components, scalar_type, part_size: [u16; 3]| Header {
        components,
        scalar_type,
        size: part_size,
        part_size,
        ..single()
    };
    vec![
        Sample::new(&of_part(1, 2, [256, 256, 1]), 0),
        Sample::new(&of_part(128, 2, [1, 2, 256]), 0),
        Sample::new(&of_part(1, 6, [32_768, 32_768, 1]), 0),
        Sample::new(&of_part(1, 11, [1, 16_384, 32_768]), 0),
        Sample::new(&of_part(3, 2, [1, 1, 65_535]), 3),
        Sample::new(&of_part(255, 11, [65_535, 65_535, 65_535]), 0),
        Sample::new(&of_part(255, 11, [65_535, 65_535, 65_535]), 8),
    ]
}

#[cfg(test)]
mod tests {
    use super::samples;
    use crate::content::image::Image;

    #[test]
    fn samples_are_accepted_and_refused() {
        let answers = samples()
            .into_iter()
            .map(|sample| Image::parse(&sample.bytes()));
        let (accepted, refused): (Vec<_>, Vec<_>) = answers.partition(Result::is_ok);
        assert!(accepted.len() > 20 && refused.len() > 80);
    }
}
