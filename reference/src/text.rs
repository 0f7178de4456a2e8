//! Texts, and the fields of a fixed length that hold them (rule 2.2).

/// A text and zeros to the end of its field, where it is a text and fits.
pub fn field<const LENGTH: usize>(text: &[u8]) -> Option<[u8; LENGTH]> {
    let mut field = [0; LENGTH];
    field.get_mut(..text.len())?.copy_from_slice(text);
    is_text(text).then_some(field)
}

/// The bytes before the first 0 of a field, whatever they and those after it are.
pub fn in_field(field: &[u8]) -> &[u8] {
    let length = field.iter().position(|&byte| byte == 0);
    &field[..length.unwrap_or(field.len())]
}

/// Sets all that follows the text in a field to 0.
pub fn clear_rest(field: &mut [u8]) {
    let length = in_field(field).len();
    field[length..].fill(0);
}

pub fn is_text(bytes: &[u8]) -> bool {
    bytes.iter().all(|byte| (1..=127).contains(byte))
}

#[cfg(test)]
mod tests {
    use super::{clear_rest, field, in_field};

    #[test]
    fn a_text_may_fill_its_field_and_may_be_empty() {
        assert_eq!(field(b"ABC"), Some(*b"ABC"));
        assert_eq!(field(b""), Some([0; 3]));
        assert_eq!(field::<3>(b"ABCD"), None);
    }

    #[test]
    fn a_text_has_bytes_1_to_127() {
        assert_eq!(field(b"\x01\x7F"), Some(*b"\x01\x7F\0"));
        assert_eq!(field::<3>(b"\x80"), None);
        assert_eq!(field::<3>(b"\0"), None);
    }

    #[test]
    fn what_follows_the_first_zero_is_left_out() {
        assert_eq!(in_field(b"A\0B"), b"A");
        assert_eq!(in_field(b"AB"), b"AB");
        assert_eq!(in_field(b"\0"), b"");
    }

    #[test]
    fn zeros_take_the_place_of_what_follows_the_text() {
        for field in [b"AB\0\0\0", b"AB\0CD", b"AB\0\0\xFF"] {
            let mut field = *field;
            clear_rest(&mut field);
            assert_eq!(field, *b"AB\0\0\0");
        }
        let [mut full, mut empty] = [*b"ABC", *b"\0BC"];
        clear_rest(&mut full);
        clear_rest(&mut empty);
        assert_eq!([full, empty], [*b"ABC", [0; 3]]);
    }
}
