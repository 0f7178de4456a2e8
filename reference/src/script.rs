//! Scripts: the calls on a panel as bytes. Every byte string is a script.
//!
//! A call is a byte for its kind, a clock and a number in eight bytes each, the lengths of two
//! parts in four bytes each, and the two parts. A number that the script's end cuts off is the
//! number of those of its bytes that are there, and a part is those of its bytes that are there.

use crate::message::body::Layout;
use crate::panel::Call;

/// Bytes of a call before its parts.
const FRONT: usize = 25;

/// A call field by field. Each kind of call ignores some of them.
#[derive(Clone, Debug, Default, PartialEq, Eq)]
pub struct Fields {
    /// 0 add, 1 link up, 2 link down, 3 message, any other look.
    pub kind: u8,
    pub clock: u64,
    /// The hold time of an add, the number of a link up's layout, the tile of a look.
    pub number: u64,
    /// The type of an add, the bytes of a message.
    pub first: Vec<u8>,
    /// The name of an add.
    pub second: Vec<u8>,
}

pub fn decode(script: &[u8]) -> Vec<Call> {
    let mut calls = Vec::new();
    let mut rest = script;
    while !rest.is_empty() {
        let (fields, length) = Fields::parse(rest);
        calls.push(fields.call());
        rest = rest.get(length..).unwrap_or_default();
    }
    calls
}

pub fn encode(calls: &[Call]) -> Vec<u8> {
    let calls = calls.iter().map(|call| Fields::of(call).encode());
    calls.collect::<Vec<_>>().concat()
}

impl Fields {
    /// Those of the first call of a script, and how far the next call is from it.
    fn parse(script: &[u8]) -> (Self, usize) {
        let field = |at, length| number(run(script, at, length));
        let [first_length, second_length] = [17, 21].map(|at| field(at, 4) as usize);
        let second_at = FRONT + first_length;
        let fields = Fields {
            kind: script[0],
            clock: field(1, 8),
            number: field(9, 8),
            first: run(script, FRONT, first_length).to_vec(),
            second: run(script, second_at, second_length).to_vec(),
        };
        (fields, second_at + second_length)
    }

    fn call(self) -> Call {
        let clock = self.clock;
        match self.kind {
            0 => Call::Add {
                type_text: self.first,
                name: self.second,
                hold_time: self.number,
            },
            1 => Call::LinkUp {
                layout: Layout::of(self.number),
                clock,
            },
            2 => Call::LinkDown { clock },
            3 => Call::Message {
                clock,
                bytes: self.first,
            },
            _ => Call::Look {
                tile: self.number,
                clock,
            },
        }
    }

    /// Those of a call, 0 or empty where it ignores them.
    pub fn of(call: &Call) -> Self {
        let of_kind = |kind, clock| Fields {
            kind,
            clock,
            ..Fields::default()
        };
        match call {
            Call::Add {
                type_text,
                name,
                hold_time,
            } => Fields {
                number: *hold_time,
                first: type_text.clone(),
                second: name.clone(),
                ..of_kind(0, 0)
            },
            Call::LinkUp { layout, clock } => Fields {
                number: layout.number().into(),
                ..of_kind(1, *clock)
            },
            Call::LinkDown { clock } => of_kind(2, *clock),
            Call::Message { clock, bytes } => Fields {
                first: bytes.clone(),
                ..of_kind(3, *clock)
            },
            Call::Look { tile, clock } => Fields {
                number: *tile,
                ..of_kind(4, *clock)
            },
        }
    }

    pub fn encode(&self) -> Vec<u8> {
        let length = |part: &[u8]| u32::try_from(part.len()).expect("a short part");
        let numbers = [self.clock, self.number].map(u64::to_be_bytes);
        let lengths = [length(&self.first), length(&self.second)].map(u32::to_be_bytes);
        let front = [&[self.kind][..], &numbers.concat(), &lengths.concat()].concat();
        [front, self.first.clone(), self.second.clone()].concat()
    }
}

/// Those bytes of a run that are there.
fn run(script: &[u8], at: usize, length: usize) -> &[u8] {
    let rest = script.get(at..).unwrap_or_default();
    &rest[..length.min(rest.len())]
}

/// The big-endian number of up to eight bytes.
fn number(bytes: &[u8]) -> u64 {
    let bytes = bytes.iter().map(|&byte| u64::from(byte));
    bytes.fold(0, |number, byte| number << 8 | byte)
}

#[cfg(test)]
mod tests {
    use super::{decode, encode, Fields, Layout};
    use crate::panel::Call;

    fn add() -> Call {
        Call::Add {
            type_text: b"TYPE".to_vec(),
            name: b"Name".to_vec(),
            hold_time: 0x0102,
        }
    }

    fn up(layout: Layout) -> Call {
        Call::LinkUp { layout, clock: 1 }
    }

    fn one_of_each() -> [Call; 6] {
        let bytes = b"bytes".to_vec();
        [
            add(),
            up(Layout::New),
            up(Layout::Old),
            Call::LinkDown { clock: u64::MAX },
            Call::Message { clock: 2, bytes },
            Call::Look {
                tile: 3,
                clock: 1 << 32,
            },
        ]
    }

    #[test]
    fn calls_are_decoded_as_they_are_encoded() {
        assert_eq!(decode(&encode(&one_of_each())), one_of_each());
        assert_eq!(decode(&[]), []);
    }

    #[test]
    fn the_fields_stand_in_their_order() {
        let bytes = Fields {
            kind: 9,
            clock: 1,
            number: 2,
            first: vec![3],
            second: vec![4, 5],
        };
        let clock_and_number = [0, 0, 0, 0, 0, 0, 0, 1, 0, 0, 0, 0, 0, 0, 0, 2];
        let lengths_and_parts = [0, 0, 0, 1, 0, 0, 0, 2, 3, 4, 5];
        let expected = [&[9][..], &clock_and_number, &lengths_and_parts].concat();
        assert_eq!(bytes.encode(), expected);
    }

    #[test]
    fn fields_that_a_call_ignores_are_any() {
        for call in one_of_each() {
            let mut fields = Fields::of(&call);
            match fields.kind {
                0 => fields.clock = 7,
                1 => fields.first = vec![7; 30],
                3 => (fields.number, fields.second) = (7, vec![7; 30]),
                4 => (fields.kind, fields.first, fields.second) = (255, vec![7], vec![7; 2]),
                _ => (fields.number, fields.first) = (7, vec![7; 30]),
            }
            let script = [fields.encode(), encode(&[add()])].concat();
            assert_eq!(decode(&script), [call, add()]);
        }
    }

    #[test]
    fn a_link_up_of_another_number_than_1_names_the_new_layout() {
        for number in [0, 2, 256, 257, 1 << 56, u64::MAX] {
            let fields = Fields {
                number,
                ..Fields::of(&up(Layout::Old))
            };
            assert_eq!(decode(&fields.encode()), [up(Layout::New)]);
        }
    }

    #[test]
    fn a_number_cut_off_is_that_of_its_bytes() {
        let look = |tile, clock| vec![Call::Look { tile, clock }];
        let script = encode(&look(0x0203_0405_0607_0809, 0x1213_1415_1617_1819));
        assert_eq!(decode(&script[..1]), look(0, 0));
        assert_eq!(decode(&script[..3]), look(0, 0x1213));
        assert_eq!(decode(&script[..8]), look(0, 0x12_1314_1516_1718));
        assert_eq!(decode(&script[..10]), look(2, 0x1213_1415_1617_1819));
        assert_eq!(decode(&script[..17]), decode(&script));
    }

    /// A length of 4 without its last bytes is 0.
    #[test]
    fn a_length_cut_off_is_that_of_its_bytes() {
        let script = encode(&[add()]);
        let texts = |length: usize| match &decode(&script[..length])[..] {
            [Call::Add {
                type_text, name, ..
            }] => [type_text.clone(), name.clone()],
            calls => panic!("{calls:?}"),
        };
        assert_eq!(texts(20), [vec![], vec![]]);
        assert_eq!(texts(25), [vec![], vec![]]);
        assert_eq!(texts(27), [b"TY".to_vec(), vec![]]);
        assert_eq!(texts(29), [b"TYPE".to_vec(), vec![]]);
        assert_eq!(texts(32), [b"TYPE".to_vec(), b"Nam".to_vec()]);
    }

    #[test]
    fn parts_past_the_end_are_those_bytes_that_are_there() {
        let script = [vec![255; 25], vec![3; 7]].concat();
        let look = Call::Look {
            tile: u64::MAX,
            clock: u64::MAX,
        };
        assert_eq!(decode(&script), [look]);
        let mut script = encode(&[add()]);
        script[17] = 1;
        let [Call::Add {
            type_text, name, ..
        }] = &decode(&script)[..]
        else {
            panic!("one call");
        };
        assert_eq!(type_text, b"TYPEName");
        assert!(name.is_empty());
    }

    #[test]
    fn zeros_are_adds_of_no_bytes() {
        assert_eq!(decode(&[0; 51]).len(), 3);
        let Call::Add { hold_time, .. } = decode(&[0; 25])[0] else {
            panic!("an add");
        };
        assert_eq!(hold_time, 0);
    }
}
