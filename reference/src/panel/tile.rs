//! A tile, as the call that adds it says.

use super::Call;
use crate::message::Message;
use crate::text;

const TYPES: [&[u8]; 2] = [b"TRANSFORM", b"POSITION"];

/// The longest name, which is the longest device name.
const LONGEST_NAME: usize = 20;

/// The longest hold time in milliseconds (rule 7.3).
const LONGEST_HOLD: u64 = 60_000;

pub struct Tile<'a> {
    type_text: &'a [u8],
    name: &'a [u8],
    pub hold_time: u64,
}

impl<'a> Tile<'a> {
    /// The tile that a call would add, allowed or not.
    pub fn of(call: &'a Call) -> Option<Self> {
        match call {
            Call::Add {
                type_text,
                name,
                hold_time,
            } => Some(Tile {
                type_text,
                name,
                hold_time: *hold_time,
            }),
            _ => None,
        }
    }

    pub fn is_allowed(&self) -> bool {
        let name_fits = (1..=LONGEST_NAME).contains(&self.name.len());
        TYPES.contains(&self.type_text)
            && name_fits
            && text::is_text(self.name)
            && (1..=LONGEST_HOLD).contains(&self.hold_time)
    }

    /// Whether the two have the same name and type.
    pub fn is_like(&self, other: &Tile) -> bool {
        [self.type_text, self.name] == [other.type_text, other.name]
    }

    /// Whether the message has the tile's name and type.
    pub fn is_of(&self, message: &Message) -> bool {
        [self.type_text, self.name] == [message.type_text, message.device_name]
    }
}

#[cfg(test)]
mod tests {
    use super::Tile;

    fn is_allowed(type_text: &[u8], name: &[u8], hold_time: u64) -> bool {
        let tile = Tile {
            type_text,
            name,
            hold_time,
        };
        tile.is_allowed()
    }

    #[test]
    fn a_type_is_one_of_two_texts() {
        assert!(is_allowed(b"TRANSFORM", b"Arm", 500));
        assert!(is_allowed(b"POSITION", b"Arm", 500));
        let others: [&[u8]; 5] = [b"", b"IMAGE", b"transform", b"POSITIO", b"TRANSFORM\0"];
        assert!(!others.iter().any(|other| is_allowed(other, b"Arm", 500)));
    }

    #[test]
    fn a_name_has_1_to_20_bytes_1_to_127() {
        let is_name = |name: &[u8]| is_allowed(b"POSITION", name, 500);
        assert!(is_name(b"\x01"));
        assert!(is_name(&[127; 20]));
        assert!(!is_name(b""));
        assert!(!is_name(&[127; 21]));
        assert!(!is_name(b"A\0"));
        assert!(!is_name(b"A\x80"));
    }

    #[test]
    fn a_hold_time_is_1_to_60_000() {
        let allowed = |hold_time: u64| is_allowed(b"POSITION", b"Arm", hold_time);
        let times = [0, 1, 60_000, 60_001, u64::MAX];
        assert_eq!(times.map(allowed), [false, true, true, false, false]);
    }
}
