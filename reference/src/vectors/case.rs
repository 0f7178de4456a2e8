//! A case: the record that the program reads and the line that it writes.

use crate::crc::crc;
use crate::message::body::Layout;
use std::fmt::{Display, Write};

#[derive(Clone)]
pub struct Case {
    record: Vec<u8>,
    line: String,
}

impl Case {
    /// A record that begins with its kind, a letter, which begins the line too.
    pub fn of_kind(kind: char) -> Self {
        let line = kind.to_string();
        let record = line.clone().into_bytes();
        Case { record, line }
    }

    /// One more field of the record.
    pub fn given(mut self, bytes: &[u8]) -> Self {
        self.record.extend(field(bytes));
        self
    }

    /// One more word of the line.
    pub fn number(self, number: impl Display) -> Self {
        self.text(format_args!(" {number}"))
    }

    pub fn numbers<N: Display>(self, numbers: impl IntoIterator<Item = N>) -> Self {
        numbers.into_iter().fold(self, Case::number)
    }

    /// One more word of the line: 1 where all texts are clean, otherwise 0.
    pub fn mark(self, clean: bool) -> Self {
        self.number(u8::from(clean))
    }

    /// One more word of the line: two digits for each byte, or a dash where there is none.
    pub fn bytes(self, bytes: &[u8]) -> Self {
        let start = self.text(if bytes.is_empty() { " -" } else { " " });
        start.text(digits(bytes))
    }

    pub fn words(self, words: &[u32]) -> Self {
        let bytes = words.iter().map(|word| word.to_be_bytes());
        bytes.fold(self, |case, bytes| case.bytes(&bytes))
    }

    /// One more word of the line: the CRC of bytes that are too many for it.
    pub fn crc_of(self, bytes: &[u8]) -> Self {
        self.bytes(&crc(bytes).to_be_bytes())
    }

    /// The words of both layouts, those of the new one first.
    pub fn in_both(self, words: impl Fn(Case, Layout) -> Case) -> Self {
        Layout::BOTH.into_iter().fold(self, words)
    }

    fn text(mut self, text: impl Display) -> Self {
        write!(self.line, "{text}").expect("a string takes any text");
        self
    }
}

/// The input: the records, and then one that lacks its last byte.
pub fn input(cases: &[Case]) -> Vec<u8> {
    let records = cases.iter().flat_map(|case| field(&case.record));
    let mut bytes: Vec<u8> = records.chain(field(b"cut short")).collect();
    bytes.pop();
    bytes
}

pub fn output(cases: &[Case]) -> Vec<u8> {
    let lines = cases.iter().map(|case| format!("{}\n", case.line));
    lines.collect::<String>().into_bytes()
}

/// Bytes after their length in two bytes: a record, or a field of one.
pub fn field(bytes: &[u8]) -> Vec<u8> {
    let length = u16::try_from(bytes.len()).expect("a length fits two bytes");
    [&length.to_be_bytes(), bytes].concat()
}

/// Two digits for each byte.
pub fn digits(bytes: &[u8]) -> String {
    bytes.iter().map(|byte| format!("{byte:02x}")).collect()
}

/// The bytes of such digits, which may stand apart.
pub fn from_digits(digits: &str) -> Vec<u8> {
    let digits: String = digits.split_whitespace().collect();
    let places = (0..digits.len()).step_by(2);
    let byte = |place| u8::from_str_radix(&digits[place..place + 2], 16).expect("two digits");
    places.map(byte).collect()
}

#[cfg(test)]
mod tests {
    use super::{digits, from_digits, input, output, Case};
    use crate::message::body::Layout;

    #[test]
    fn a_case_has_a_record_and_a_line() {
        let case = Case::of_kind('T').given(&[1, 2]).number(8).bytes(&[]);
        let cases = [case.words(&[0xAB])];
        assert!(input(&cases).starts_with(&[0, 5, b'T', 0, 2, 1, 2]));
        assert_eq!(output(&cases), b"T 8 - 000000ab\n");
    }

    #[test]
    fn two_digits_for_a_byte() {
        assert_eq!(from_digits("00 7f\nA0 Ff"), [0, 0x7F, 0xA0, 0xFF]);
        assert_eq!(digits(&from_digits("007fa0ff")), "007fa0ff");
    }

    #[test]
    fn the_new_layout_comes_first() {
        let case = Case::of_kind('R').in_both(|case, layout| {
            let number = if layout == Layout::New { 7 } else { 8 };
            case.number(number)
        });
        assert_eq!(output(&[case]), b"R 7 8\n");
    }
}
