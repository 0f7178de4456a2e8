//! Ten examples of what a feed does, most of them with the two messages of rule 8.3: one of 58
//! bytes that is accepted, and one of 59 bytes whose CRC is wrong.

use super::{feed, pieces, with};
use crate::feed::Pushes;
use crate::vectors::samples::{set, Fields, Sample};
use crate::vectors::streams::listing_input;

pub fn feeds() -> Vec<Pushes> {
    [
        openings().to_vec(),
        a_header_in_two_fragments().to_vec(),
        vec![one_byte_too_many()],
        both_fit().to_vec(),
        vec![
            byte_by_byte(),
            no_text(),
            above_the_limit(),
            another_length(),
        ],
        another_version().to_vec(),
        vec![passed_over()],
    ]
    .concat()
}

fn sound() -> Vec<u8> {
    listing_input()[..58].to_vec()
}

fn wrong() -> Vec<u8> {
    listing_input()[58..].to_vec()
}

/// The first buffer is one byte too short.
fn openings() -> [Pushes; 2] {
    [57, 58].map(|room| feed(room, &[]))
}

/// The last byte of the header comes with the second fragment, alone or with the next message.
fn a_header_in_two_fragments() -> [Pushes; 2] {
    let (front, last) = (&sound()[..57], &listing_input()[57..]);
    [&last[..1], last].map(|last| feed(58, &[front, last]))
}

/// A feed that has answered one message is given one that exceeds the buffer.
fn one_byte_too_many() -> Pushes {
    feed(58, &[&sound(), &wrong()])
}

/// The second buffer has five bytes more than the longer message, which stay as they were.
fn both_fit() -> [Pushes; 2] {
    [59, 64].map(|room| feed(room, &[&sound(), &wrong()]))
}

fn byte_by_byte() -> Pushes {
    let stream = [listing_input(), sound()].concat();
    pieces(59, &stream, 1)
}

/// The first byte of TYPE is no text's, and ten bytes follow the header. Then comes a push with a
/// buffer of ten bytes.
fn no_text() -> Pushes {
    let stream = [set(&sound(), 2, 0x80), vec![7; 10]].concat();
    with(feed(58, &[&stream]), 10, &sound())
}

/// A header with a BODY_SIZE one above the limit, then a sound message.
fn above_the_limit() -> Pushes {
    let header = announcing(16_777_217);
    feed(58, &[&header, &sound()])
}

/// The same message with a buffer one byte longer than that of the opening, then with one as long.
fn another_length() -> Pushes {
    let refused = with(feed(58, &[]), 59, &sound());
    with(refused, 58, &sound())
}

/// V 3 is what counts of a message that fits the buffer, but not of one that exceeds it.
fn another_version() -> [Pushes; 2] {
    let stream = set(&wrong(), 1, 3);
    [59, 58].map(|room| feed(room, &[&stream]))
}

/// A message of 158 bytes and a buffer of 100: its header, its body but for the last byte, nothing,
/// and the last byte.
fn passed_over() -> Pushes {
    feed(100, &[&announcing(100), &[7; 99], &[], &[7]])
}

/// The header of the message of 58 bytes with another BODY_SIZE.
fn announcing(size: u64) -> Vec<u8> {
    let mut fields = Fields::of(&Sample::plain(b"GET_STATUS", &[]));
    fields.body_size = Some(size);
    fields.bytes()
}

#[cfg(test)]
mod tests {
    use super::{
        a_header_in_two_fragments, above_the_limit, another_length, another_version, both_fit,
        byte_by_byte, no_text, one_byte_too_many, openings, passed_over, Pushes,
    };
    use crate::vectors::feeds::lines;

    /// The header of both messages up to BODY_SIZE: V, TYPE, DEVICE_NAME, TIME_STAMP.
    const FRONT: &str = "0001\
        4745545f5354415455530000\
        41726d0000000000000000000000000000000000\
        0000000000000000";

    /// The two messages: BODY_SIZE, CRC and the body.
    const SOUND: &str = "00000000000000000000000000000000";
    const WRONG: &str = "0000000000000001000000000000000001";

    /// What the first is answered, but for the bytes taken.
    const ACCEPTED: &str = "0 read 0 58 1 10 3 0 0 58 0 58 0 58 0 1";

    fn assert_lines(feed: &Pushes, expected: &[&str], buffer: &str) {
        let expected = expected.join("\n");
        assert_eq!(
            lines(feed),
            format!("opened\n{expected}\nbuffer {buffer}\n")
        );
    }

    #[test]
    fn the_1st_a_buffer_of_58_bytes_is_needed() {
        let [short, enough] = openings();
        assert_eq!(lines(&short), "refused 20\n");
        let untouched = "ee".repeat(58);
        assert_eq!(lines(&enough), format!("opened\nbuffer {untouched}\n"));
    }

    #[test]
    fn the_2nd_a_header_in_two_fragments() {
        let [alone, with_next] = a_header_in_two_fragments();
        let accepted = format!("1 {ACCEPTED}");
        let buffer = format!("{FRONT}{SOUND}");
        assert_lines(&alone, &["57 57 nothing", &accepted], &buffer);
        let next = "59 0 read 20 59 0 0 0 0 0 0 0 0 0 0 0 0";
        let buffer = format!("{FRONT}{}", &WRONG[..32]);
        assert_lines(&with_next, &["57 57 nothing", &accepted, next], &buffer);
    }

    #[test]
    fn the_3rd_a_message_of_59_bytes_exceeds_58() {
        let accepted = format!("58 {ACCEPTED}");
        let exceeds = "59 0 read 20 59 0 0 0 0 0 0 0 0 0 0 0 0";
        let buffer = format!("{FRONT}{}", &WRONG[..32]);
        assert_lines(&one_byte_too_many(), &[&accepted, exceeds], &buffer);
    }

    #[test]
    fn the_4th_a_message_of_59_bytes_fits_59() {
        let [exact, wider] = both_fit();
        let accepted = format!("58 {ACCEPTED}");
        let expected = [&accepted[..], "59 0 read 5 59 0 0 0 0 0 0 0 0 0 0 0 0"];
        assert_lines(&exact, &expected, &format!("{FRONT}{WRONG}"));
        assert_lines(&wider, &expected, &format!("{FRONT}{WRONG}eeeeeeeeee"));
    }

    /// The last byte of the buffer is that of the second message.
    #[test]
    fn the_5th_three_messages_byte_by_byte() {
        let expected = (1..=175).map(|place| match place {
            58 | 175 => format!("1 {ACCEPTED}"),
            117 => "1 0 read 5 59 0 0 0 0 0 0 0 0 0 0 0 0".to_string(),
            1..=57 => format!("1 {place} nothing"),
            59..=116 => format!("1 {} nothing", place - 58),
            _ => format!("1 {} nothing", place - 117),
        });
        let expected: Vec<String> = expected.collect();
        let expected: Vec<&str> = expected.iter().map(String::as_str).collect();
        assert_lines(&byte_by_byte(), &expected, &format!("{FRONT}{SOUND}01"));
    }

    #[test]
    fn the_6th_a_type_that_is_no_text_stops_the_feed() {
        let expected = [
            "58 0 read 2 0 0 0 0 0 0 0 0 0 0 0 0 0",
            "0 0 refused 21",
            "0 0 refused 21",
        ];
        let front = FRONT.replacen("000147", "000180", 1);
        assert_lines(&no_text(), &expected, &format!("{front}{SOUND}"));
    }

    #[test]
    fn the_7th_a_body_above_the_limit_stops_the_feed() {
        let expected = ["58 0 read 3 0 0 0 0 0 0 0 0 0 0 0 0 0", "0 0 refused 21"];
        let buffer = format!("{FRONT}00000000010000010000000000000000");
        assert_lines(&above_the_limit(), &expected, &buffer);
    }

    #[test]
    fn the_8th_a_push_with_another_length_is_refused() {
        let accepted = format!("58 {ACCEPTED}");
        let expected = ["0 0 refused 20", &accepted];
        assert_lines(&another_length(), &expected, &format!("{FRONT}{SOUND}"));
    }

    #[test]
    fn the_9th_v_3_is_looked_at_where_the_message_fits() {
        let [fits, exceeds] = another_version();
        let front = FRONT.replacen("0001", "0003", 1);
        let expected = ["59 0 read 4 59 0 0 0 0 0 0 0 0 0 0 0 0"];
        assert_lines(&fits, &expected, &format!("{front}{WRONG}"));
        let expected = ["59 0 read 20 59 0 0 0 0 0 0 0 0 0 0 0 0"];
        assert_lines(&exceeds, &expected, &format!("{front}{}", &WRONG[..32]));
    }

    #[test]
    fn the_10th_a_body_is_passed_over() {
        let expected = [
            "58 0 nothing",
            "99 0 nothing",
            "0 0 nothing",
            "1 0 read 20 158 0 0 0 0 0 0 0 0 0 0 0 0",
        ];
        let rest = "ee".repeat(42);
        let buffer = format!("{FRONT}00000000000000640000000000000000{rest}");
        assert_lines(&passed_over(), &expected, &buffer);
    }
}
