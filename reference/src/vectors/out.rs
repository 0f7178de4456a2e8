//! Buffers for writers: too short, just enough, and larger. The line shows what they hold
//! afterwards.

use super::case::Case;
use crate::fault::number;
use crate::writer::Written;

/// A buffer of this room, all bytes the same before the call.
#[derive(Clone, Copy)]
pub struct Out {
    pub room: usize,
    pub fill: u8,
}

impl Out {
    pub fn new(room: usize) -> Self {
        Out { room, fill: 0xAA }
    }

    /// A case that begins with the room in four bytes and the fill.
    pub fn case(self, kind: char) -> Case {
        let room = u32::try_from(self.room).expect("a room fits four bytes");
        Case::of_kind(kind).given(&[&room.to_be_bytes()[..], &[self.fill]].concat())
    }

    /// What a writer answers, and the buffer after it.
    pub fn after(self, write: impl FnOnce(&mut [u8]) -> Written) -> (Written, Vec<u8>) {
        let mut out = vec![self.fill; self.room];
        (write(&mut out), out)
    }
}

/// Rooms around this length.
pub fn rooms(length: usize) -> [Out; 5] {
    let rooms = [0, length.saturating_sub(1), length, length + 1, length + 9];
    rooms.map(Out::new)
}

/// The answer, and the whole buffer afterwards.
pub fn answered(case: Case, (written, out): (Written, Vec<u8>)) -> Case {
    case.number(number(&written))
        .number(written.unwrap_or(0))
        .bytes(&out)
}

/// The answer, and the CRC of the buffer, which is too long for a line.
pub fn answered_with_crc(case: Case, (written, out): (Written, Vec<u8>)) -> Case {
    case.number(number(&written))
        .number(written.unwrap_or(0))
        .crc_of(&out)
}
