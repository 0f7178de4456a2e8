//! The check of an IMAGE content.

use super::fields::{be16, be32, be8};

// As in the library the whole header is read, and the check needs only a part of it.
#[allow(dead_code)]
struct ImageHeader {
    version: u16,
    components: u8,
    scalar_type: u8,
    endian: u8,
    coordinate: u8,
    size: [u16; 3],
    axis_i: [u32; 3],
    axis_j: [u32; 3],
    axis_k: [u32; 3],
    centre: [u32; 3],
    offset: [u16; 3],
    sub_size: [u16; 3],
}

fn scalar_size(s: u8) -> usize {
    const SIZES: [usize; 12] = [0, 0, 1, 1, 2, 2, 4, 4, 0, 0, 4, 8];
    SIZES.get(usize::from(s)).copied().unwrap_or(0)
}

fn one_or_two(n: u8) -> bool {
    n == 1 || n == 2
}

fn kind_ok(header: &ImageHeader) -> bool {
    1 <= header.components
        && 1 <= scalar_size(header.scalar_type)
        && one_or_two(header.endian)
        && one_or_two(header.coordinate)
}

fn within(size: u16, offset: u16, sub: u16) -> bool {
    1 <= size && 1 <= sub && u32::from(offset) + u32::from(sub) <= u32::from(size)
}

fn directions_ok(header: &ImageHeader) -> bool {
    (0..3).all(|d| within(header.size[d], header.offset[d], header.sub_size[d]))
}

fn pixel_bytes(header: &ImageHeader) -> usize {
    let [i, j, k] = header.sub_size.map(usize::from);
    usize::from(header.components) * scalar_size(header.scalar_type) * (i * j * k)
}

fn rule_fault(header: &ImageHeader, n: usize) -> u8 {
    if kind_ok(header) && directions_ok(header) && n == pixel_bytes(header) {
        0
    } else {
        9
    }
}

fn halves_at(s: &[u8], at: usize) -> [u16; 3] {
    [be16(s, at), be16(s, at + 2), be16(s, at + 4)]
}

fn words_at(s: &[u8], at: usize) -> [u32; 3] {
    [be32(s, at), be32(s, at + 4), be32(s, at + 8)]
}

fn header_of(content: &[u8]) -> ImageHeader {
    ImageHeader {
        version: be16(content, 0),
        components: be8(content, 2),
        scalar_type: be8(content, 3),
        endian: be8(content, 4),
        coordinate: be8(content, 5),
        size: halves_at(content, 6),
        axis_i: words_at(content, 12),
        axis_j: words_at(content, 24),
        axis_k: words_at(content, 36),
        centre: words_at(content, 48),
        offset: halves_at(content, 60),
        sub_size: halves_at(content, 66),
    }
}

pub fn image_fault(content: &[u8]) -> u8 {
    if content.len() < 72 {
        return 9;
    }
    rule_fault(&header_of(content), content.len() - 72)
}
