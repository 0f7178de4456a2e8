//! Contents, sections and streams too long for a record: zeros but for two bytes at each of some
//! places.

/// A length and the patches, which the program is given to make the content itself.
#[derive(Clone)]
pub struct Patched {
    length: u32,
    patches: Vec<(u32, u16)>,
}

impl Patched {
    pub fn new(length: u32, patches: &[(u32, u16)]) -> Self {
        let patches = patches.to_vec();
        Patched { length, patches }
    }

    /// The patches that make these bytes, two at least.
    pub fn of(bytes: &[u8]) -> Self {
        let last = bytes.len() - 2;
        let places = (0..bytes.len()).step_by(2).map(|place| place.min(last));
        let patches = places.map(|place| {
            let value = u16::from_be_bytes([bytes[place], bytes[place + 1]]);
            (word(place), value)
        });
        let patches: Vec<_> = patches.filter(|&(_, value)| value != 0).collect();
        Patched::new(word(bytes.len()), &patches)
    }

    /// The BIND of so many children without type, name or data, and an even number of bytes for
    /// their names.
    pub fn children(count: u16) -> Self {
        let table_place = 2 + 20 * u32::from(count);
        let table_size = count + count % 2;
        let length = table_place + 2 + u32::from(table_size);
        Patched::new(length, &[(0, count), (table_place, table_size)])
    }

    /// One more patch, so many bytes before the end.
    pub fn patch(mut self, from_end: u32, value: u16) -> Self {
        self.patches.push((self.length - from_end, value));
        self
    }

    pub fn longer(mut self, by: i32) -> Self {
        self.length = self.length.wrapping_add_signed(by);
        self
    }

    pub fn content(&self) -> Vec<u8> {
        let mut content = vec![0; self.length as usize];
        for &(place, value) in &self.patches {
            let place = place as usize;
            content[place..place + 2].copy_from_slice(&value.to_be_bytes());
        }
        content
    }

    /// The length in four bytes; then the place in four bytes and the two bytes of each patch.
    pub fn fields(&self) -> [Vec<u8>; 2] {
        let patches = self.patches.iter();
        let bytes = patches.flat_map(|(place, value)| {
            let value = value.to_be_bytes();
            place.to_be_bytes().into_iter().chain(value)
        });
        [self.length.to_be_bytes().to_vec(), bytes.collect()]
    }
}

fn word(number: usize) -> u32 {
    u32::try_from(number).expect("a place fits four bytes")
}

#[cfg(test)]
mod tests {
    use super::Patched;
    use crate::content::parse;

    #[test]
    fn the_largest_bind_of_children_without_bytes() {
        let content = Patched::children(65_534).content();
        assert_eq!(content.len(), 1_376_218);
        assert!(parse(b"BIND", &content).is_ok());
    }

    #[test]
    fn the_patches_of_bytes_make_them() {
        for bytes in [&[0, 7, 0, 0, 8][..], &[0, 7, 0, 0, 8, 9], &[0; 7]] {
            assert_eq!(Patched::of(bytes).content(), bytes);
        }
    }
}
