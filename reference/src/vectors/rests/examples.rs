//! Ten examples of texts that are not followed by zeros alone, and of what stays strict. The one of
//! the panel stands with the scripts.

use crate::message::header::{Header, LENGTH};
use crate::vectors::bundles::{bundle, part};
use crate::vectors::case::{from_digits, Case};
use crate::vectors::children::{either_case, lookup_case};
use crate::vectors::contents::typed_case;
use crate::vectors::headers::{self, header_case};
use crate::vectors::message_writers::exact_case;
use crate::vectors::messages::message_case;
use crate::vectors::metadata::value_case;
use crate::vectors::out::Out;
use crate::vectors::samples::{mended, set, Sample};
use crate::vectors::writers::Lists;

/// The Arm's TRANSFORM of V 1 up to BODY_SIZE, with bytes after both texts: V, TYPE, DEVICE_NAME,
/// TIME_STAMP and BODY_SIZE.
const FRONT: &str = "0001
    54 52 41 4E 53 46 4F 52 4D 00 FF 80
    41 72 6D 00 99999999 99999999 99999999 99999999
    0000000000000000 0000000000000030";

/// The CRC of its body, which is 48 bytes 07.
const CRC: &str = "8B135E00F18E82B9";

/// A BIND of one child up to its data, which are the same 48 bytes: N_CHILD, CTYPE, CSIZE,
/// NAME_TABLE_SIZE and the name table.
const INNER: &str = "0001
    54 52 41 4E 53 46 4F 52 4D 00 C8 C8
    0000000000000030 0002 4100";

/// A BIND of one child up to its data, which are the other BIND.
const OUTER: &str = "0001
    42 49 4E 44 00 FF FF FF FF FF FF FF
    000000000000004A 0002 4E00";

/// The header of its message up to the CRC.
const BIND_FRONT: &str = "0001
    42 49 4E 44 00 00 00 00 00 00 00 00
    41 72 6D 00 00000000 00000000 00000000 00000000
    0000000000000000 0000000000000064";

const POSE: [u8; 48] = [7; 48];

/// The Arm's message.
pub fn arm() -> Vec<u8> {
    [from_digits(FRONT), from_digits(CRC), POSE.to_vec()].concat()
}

/// The same with zeros after both texts.
fn clean_arm() -> Vec<u8> {
    Sample::plain(b"TRANSFORM", &POSE).bytes()
}

fn inner() -> Vec<u8> {
    [from_digits(INNER), POSE.to_vec()].concat()
}

fn outer() -> Vec<u8> {
    [from_digits(OUTER), inner()].concat()
}

/// The outer BIND with zeros after the text of its own CTYPE.
fn clean_outside() -> Vec<u8> {
    bundle(&[part(b"BIND", b"N", &inner())])
}

/// The BIND's message with this CRC and this content.
fn bind_message(crc: &str, content: &[u8]) -> Vec<u8> {
    [from_digits(BIND_FRONT), from_digits(crc), content.to_vec()].concat()
}

/// The outer BIND's message, with the CRC of its body and with that of the body written clean.
pub fn bind_messages() -> [Vec<u8>; 2] {
    let crcs = ["046DB95619DAD89C", "AF612CD48CD2BDFC"];
    crcs.map(|crc| bind_message(crc, &outer()))
}

pub fn cases() -> Vec<Case> {
    [
        a_message().to_vec(),
        a_bundle().to_vec(),
        two_bundles().to_vec(),
        written().to_vec(),
        strict().to_vec(),
        vec![message_case(&no_type())],
    ]
    .concat()
}

/// Read whole and as a header, and written back; with a byte that is no text's in the place of the
/// 0 that ends TYPE; with zeros after both texts.
fn a_message() -> [Case; 6] {
    let header = Header::parse(&arm()[..LENGTH]).map(|header| {
        let out = Out::new(LENGTH);
        headers::written_case(&header, out)
    });
    [
        message_case(&arm()),
        header_case(&arm()[..LENGTH]),
        exact_case(&Sample::plain(b"TRANSFORM", &POSE)),
        header.expect("a header that is accepted"),
        message_case(&set(&arm(), 11, 0x80)),
        message_case(&clean_arm()),
    ]
}

/// The message of a BIND in a BIND, and look-ups in them.
fn a_bundle() -> [Case; 6] {
    let [received, reworked] = bind_messages();
    let inside = mended(bind_message(CRC, &clean_outside()));
    [
        message_case(&received),
        message_case(&reworked),
        message_case(&inside),
        lookup_case(&clean_outside(), 0, b"N"),
        lookup_case(&outer(), 0, b"A"),
        lookup_case(&inner(), 1, b"A"),
    ]
}

/// The site's bundle has a child of the name A, the default one of the name B.
fn two_bundles() -> [Case; 3] {
    let default = bundle(&[part(b"TRANSFORM", b"B", &POSE)]);
    [b"A", b"B", b"C"].map(|name| either_case(&inner(), &default, name))
}

/// As the data of a child that is a BIND and of one that is not, and as the content of a message,
/// also with a type that has a 0.
fn written() -> [Case; 4] {
    let data = inner();
    let of_type = |type_text| {
        let lists = Lists::of(&[part(type_text, b"N", &data)]);
        lists.case(Out::new(100))
    };
    let sample = Sample::plain(b"BIND", &outer());
    let with_zero = sample.with(|sample| sample.type_text.push(0));
    [
        of_type(b"BIND"),
        of_type(b"OTHER"),
        exact_case(&sample),
        exact_case(&with_zero),
    ]
}

/// A byte above 127 in a CTYPE and in the name table, a pad that is not 0, and a key with a 0.
fn strict() -> [Case; 4] {
    let content = bundle(&[part(b"T", b"A", b"odd")]);
    let of_bind = |place, value| typed_case(b"BIND", &set(&content, place, value));
    let key = from_digits("0001 0001 0003 00000001 00 76");
    [
        of_bind(3, 0x80),
        of_bind(25, 0x80),
        of_bind(29, 1),
        value_case(&key, b"\0"),
    ]
}

/// TYPE is all zeros but for its last byte.
fn no_type() -> Vec<u8> {
    set(&Sample::plain(b"", b"content").bytes(), 13, 0x41)
}

#[cfg(test)]
mod tests {
    use super::{arm, bind_message, bind_messages, clean_arm, clean_outside};
    use super::{from_digits, inner, no_type, outer, Sample, POSE};
    use crate::content::{cleaned, parse};
    use crate::crc::crc;
    use crate::fault::{number, Fault};
    use crate::lookup::{by_name, count, either, Source};
    use crate::message::body::Layout;
    use crate::message::metadata;
    use crate::message::{read, Message};
    use crate::vectors::bundles::{bundle, part};
    use crate::vectors::samples::{mended, set};
    use crate::writer::{write_bind, write_message};

    /// Number, step and mark, which are the same in both layouts.
    fn answered(stream: &[u8]) -> (u8, usize, bool) {
        let [new, old] = Layout::BOTH.map(|layout| {
            let reading = read(layout, stream);
            (number(&reading.message), reading.step, reading.clean)
        });
        assert_eq!(new, old);
        new
    }

    fn message(stream: &[u8]) -> Message<'_> {
        read(Layout::New, stream).message.unwrap()
    }

    /// What a message is written back as.
    fn written_back(stream: &[u8]) -> Vec<u8> {
        let [new, old] = Layout::BOTH.map(|layout| message(stream).encode(layout));
        assert_eq!(new, old);
        new.unwrap()
    }

    const CLEAN_FRONT: &str = "0001
        54 52 41 4E 53 46 4F 52 4D 00 00 00
        41 72 6D 00 00000000 00000000 00000000 00000000
        0000000000000000 0000000000000030 8B135E00F18E82B9";

    #[test]
    fn the_1st_a_message_is_read_and_written_back_clean() {
        assert_eq!(crc(&POSE), 0x8B13_5E00_F18E_82B9);
        assert_eq!(answered(&arm()), (0, 106, false));
        let stream = arm();
        let message = message(&stream);
        assert_eq!(
            [message.type_text, message.device_name],
            [&b"TRANSFORM"[..], b"Arm"]
        );
        assert_eq!(message.body.content, POSE);
        let clean = [from_digits(CLEAN_FRONT), POSE.to_vec()].concat();
        assert_eq!(written_back(&stream), clean);
    }

    #[test]
    fn the_2nd_a_byte_above_127_and_a_clean_message() {
        assert_eq!(answered(&set(&arm(), 11, 0x80)), (2, 0, false));
        assert_eq!(clean_arm()[..58], from_digits(CLEAN_FRONT));
        assert_eq!(answered(&clean_arm()), (0, 106, true));
        assert_eq!(written_back(&clean_arm()), clean_arm());
    }

    fn clean_inner() -> Vec<u8> {
        let front = "0001 54 52 41 4E 53 46 4F 52 4D 00 00 00 0000000000000030 0002 4100";
        [from_digits(front), POSE.to_vec()].concat()
    }

    fn clean_outer() -> Vec<u8> {
        let front = "0001 42 49 4E 44 00 00 00 00 00 00 00 00 000000000000004A 0002 4E00";
        [from_digits(front), clean_inner()].concat()
    }

    #[test]
    fn the_4th_a_bind_in_a_bind() {
        assert_eq!([inner().len(), outer().len()], [74, 100]);
        let crcs = [inner(), clean_inner(), outer(), clean_outer()].map(|content| crc(&content));
        let expected = [
            0x3C4E_B6A7_7B6B_33DB,
            0xB6EC_4991_0FC9_BB16,
            0x046D_B956_19DA_D89C,
            0xAF61_2CD4_8CD2_BDFC,
        ];
        assert_eq!(crcs, expected);
        assert_eq!(cleaned(b"BIND", &outer()), Ok(clean_outer()));
        let [received, reworked] = bind_messages();
        assert_eq!(answered(&received), (0, 158, false));
        assert_eq!(message(&received).body.content, outer());
        let clean = bind_message("AF612CD48CD2BDFC", &clean_outer());
        assert_eq!(written_back(&received), clean);
        assert_eq!(answered(&clean), (0, 158, true));
        assert_eq!(answered(&reworked), (5, 158, false));
    }

    #[test]
    fn the_5th_the_inner_bind_alone() {
        let stream = mended(bind_message("0000000000000000", &clean_outside()));
        assert_eq!(answered(&stream), (0, 158, false));
        let content = clean_outside();
        let found = by_name(&content, b"N").unwrap();
        assert_eq!((found.at, found.clean), (26, false));
        assert_eq!(found.child.data, inner());
        assert!(!count(&content).unwrap().clean);
        assert!(by_name(&clean_outer(), b"N").unwrap().clean);
    }

    #[test]
    fn the_6th_the_bundle_answered_from() {
        let site = inner();
        let default = bundle(&[part(b"TRANSFORM", b"B", &POSE)]);
        let answer = |name| {
            let answer = either(&site, &default, name);
            answer.map(|(source, found)| (source, found.clean))
        };
        assert_eq!(answer(b"A"), Ok((Source::Site, false)));
        assert_eq!(answer(b"B"), Ok((Source::Default, true)));
        assert_eq!(answer(b"C"), Err(Fault::NotFound));
    }

    #[test]
    fn the_7th_the_data_of_a_child_are_written_clean() {
        let written = |type_text: &[u8]| {
            let mut out = [0xAA; 101];
            let written = write_bind(&[type_text], &[b"N"], &[&inner()], &mut out);
            assert_eq!((written, out[100]), (Ok(100), 0xAA));
            out[..100].to_vec()
        };
        assert_eq!(written(b"BIND"), clean_outer());
        assert_eq!(written(b"OTHER")[26..], inner());
    }

    #[test]
    fn the_8th_the_content_of_a_message_is_written_clean() {
        let mut sample = Sample::plain(b"BIND", &outer());
        let mut out = [0xAA; 159];
        let written = write_message(Layout::Old, &sample.message(), &mut out);
        assert_eq!(written, Ok(158));
        assert_eq!(out[50..58], from_digits("AF612CD48CD2BDFC"));
        assert_eq!(out[58..], [&clean_outer()[..], &[0xAA]].concat());
        sample.type_text.push(0);
        assert_eq!(sample.message().encode(Layout::New), Err(Fault::Text));
    }

    #[test]
    fn the_9th_what_stays_strict() {
        let bind = "0001 54 80 00 00 00 00 00 00 00 00 00 00 0000000000000001 0002 4100 07 00";
        let judged = |place, value| number(&parse(b"BIND", &set(&from_digits(bind), place, value)));
        assert_eq!(judged(3, 0x80), 10);
        assert_eq!(judged(3, 0), 0);
        let sound = set(&from_digits(bind), 3, 0);
        assert_eq!(number(&parse(b"BIND", &set(&sound, 25, 0x80))), 10);
        assert_eq!(number(&parse(b"BIND", &set(&sound, 27, 1))), 10);
        let section = from_digits("0001 0001 0003 00000001 00 76");
        assert_eq!(metadata::parse(&section), Err(Fault::Metadata));
    }

    #[test]
    fn the_10th_an_empty_type() {
        let stream = no_type();
        assert_eq!(
            stream[2..14],
            from_digits("00 00 00 00 00 00 00 00 00 00 00 41")
        );
        assert_eq!(answered(&stream), (0, 65, false));
        let message = message(&stream);
        assert_eq!(
            (message.type_text, message.body.content),
            (&b""[..], &b"content"[..])
        );
    }
}
