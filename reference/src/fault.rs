//! The numbers of rule 5.1 for what is refused.

/// Why a message, a content, a look-up, a writer's call, or a call on the panel or on a feed is
/// refused; the discriminant is the number given back.
#[derive(Clone, Copy, Debug, PartialEq, Eq, PartialOrd, Ord)]
pub enum Fault {
    /// A part of the header, or of the message that it announces, is missing.
    Short = 1,
    /// A type or a device name is no text, or does not fit its field.
    Text = 2,
    /// A body above the limit.
    Limit = 3,
    Version = 4,
    Crc = 5,
    /// The extended header, or what cannot be had with this version.
    Extended = 6,
    Metadata = 7,
    /// The length of a TRANSFORM or a POSITION.
    Length = 8,
    Image = 9,
    Bind = 10,
    /// A BIND below the deepest level.
    Depth = 11,
    /// Bytes after the one message.
    LeftOver = 12,
    /// No tile has the message's name and type.
    NoTile = 13,
    LinkDown = 14,
    /// A clock behind the panel's.
    Earlier = 15,
    /// A tile's type, name or hold time.
    Tile = 16,
    /// A second tile of a name and type.
    Twice = 17,
    /// More tiles than the panel has.
    Full = 18,
    /// No such tile, child or key.
    NotFound = 19,
    /// A buffer too short for what is written, for a feed, or for a message of a feed; or of another
    /// length than the feed's.
    Room = 20,
    /// A feed that has answered 2 or 3.
    Stopped = 21,
}

/// The fault with the smallest number, which is the first one wherever the numbers ascend in the
/// order of the checks: from the version on in the reader, and throughout in the writers.
pub fn smallest<const N: usize>(faults: [Option<Fault>; N]) -> Option<Fault> {
    faults.into_iter().flatten().min()
}

/// The number of an answer, 0 where it is accepted.
pub fn number<T>(answer: &Result<T, Fault>) -> u8 {
    match answer {
        Ok(_) => 0,
        Err(fault) => *fault as u8,
    }
}

#[cfg(test)]
mod tests {
    use super::{smallest, Fault};

    #[test]
    fn the_smallest_number_counts() {
        let faults = [Some(Fault::Room), None, Some(Fault::Crc), Some(Fault::Bind)];
        assert_eq!(smallest(faults), Some(Fault::Crc));
        assert_eq!(smallest([None, None]), None);
    }
}
