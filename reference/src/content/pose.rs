//! TRANSFORM and POSITION (rules 4.2 to 4.4). A float is the word of 32 bits that it is sent as.

use crate::cursor::Cursor;
use crate::fault::Fault;

/// The upper three rows of a 4 x 4 matrix: rotation, and translation in the last column.
#[derive(Clone, Debug, PartialEq, Eq, Default)]
pub struct Transform {
    rows: [[u32; 4]; 3],
}

impl Transform {
    /// From the twelve words in the order sent, which is column by column.
    pub fn from_columns(words: [u32; 12]) -> Self {
        let mut transform = Transform::default();
        for (place, word) in words.into_iter().enumerate() {
            transform.rows[place % 3][place / 3] = word;
        }
        transform
    }

    /// The words of one column; column 3 is the translation.
    pub fn column(&self, column: usize) -> [u32; 3] {
        self.rows.map(|row| row[column])
    }

    pub fn columns(&self) -> Vec<u32> {
        (0..4).flat_map(|column| self.column(column)).collect()
    }

    pub fn parse(bytes: &[u8]) -> Result<Self, Fault> {
        let words = parse_words(bytes).ok_or(Fault::Length)?;
        let words = words.try_into().map_err(|_| Fault::Length)?;
        Ok(Transform::from_columns(words))
    }

    pub fn encode(&self) -> Vec<u8> {
        encode_words(&self.columns())
    }
}

/// Position alone, with three numbers of the orientation, or with all four.
#[derive(Clone, Debug, PartialEq, Eq)]
pub struct Position {
    words: Vec<u32>,
}

impl Position {
    pub fn from_words(words: Vec<u32>) -> Result<Self, Fault> {
        if [3, 6, 7].contains(&words.len()) {
            Ok(Position { words })
        } else {
            Err(Fault::Length)
        }
    }

    pub fn words(&self) -> &[u32] {
        &self.words
    }

    pub fn parse(bytes: &[u8]) -> Result<Self, Fault> {
        Position::from_words(parse_words(bytes).ok_or(Fault::Length)?)
    }

    pub fn encode(&self) -> Vec<u8> {
        encode_words(&self.words)
    }
}

/// The words of the bytes, where they are whole words.
fn parse_words(bytes: &[u8]) -> Option<Vec<u32>> {
    let words = bytes.chunks(4).map(|chunk| Cursor::new(chunk).u32());
    words.collect()
}

fn encode_words(words: &[u32]) -> Vec<u8> {
    words.iter().flat_map(|word| word.to_be_bytes()).collect()
}

#[cfg(test)]
mod tests {
    use super::{Position, Transform};
    use crate::fault::Fault;

    #[test]
    fn the_rotation_is_read_column_by_column() {
        let transform = Transform::from_columns([0, 1, 2, 3, 4, 5, 6, 7, 8, 9, 10, 11]);
        assert_eq!(transform.rows, [[0, 3, 6, 9], [1, 4, 7, 10], [2, 5, 8, 11]]);
        assert_eq!(transform.column(3), [9, 10, 11]);
        assert_eq!(Transform::parse(&transform.encode()), Ok(transform));
    }

    #[test]
    fn a_transform_has_48_bytes() {
        for length in 0..100 {
            assert_eq!(Transform::parse(&vec![7; length]).is_ok(), length == 48);
        }
    }

    #[test]
    fn a_position_has_12_or_24_or_28_bytes() {
        for length in 0..100 {
            let accepted = [12, 24, 28].contains(&length);
            assert_eq!(Position::parse(&vec![7; length]).is_ok(), accepted);
        }
    }

    #[test]
    fn a_position_keeps_its_length_and_its_bits() {
        let words = vec![0x7FC0_0001, 0xFF80_0000, 0x8000_0000];
        let position = Position::from_words(words.clone()).unwrap();
        assert_eq!(Position::parse(&position.encode()).unwrap().words(), words);
        assert_eq!(Position::from_words(vec![0; 4]), Err(Fault::Length));
    }
}
