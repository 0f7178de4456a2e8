//! Writers of contents, headers and messages: the bytes into the front of a lent buffer, or nothing
//! of it touched. In a content that one is given, zeros take the place of what follows each text.

use crate::content::bind::Part;
use crate::content::bind_of;
use crate::content::image::{Header, Image};
use crate::content::pose::{Position, Transform};
use crate::fault::Fault;
use crate::message::body::Layout;
use crate::message::{header, Message};

/// How many bytes were written.
pub type Written = Result<usize, Fault>;

pub fn write_transform(transform: &Transform, out: &mut [u8]) -> Written {
    store(&transform.encode(), out)
}

pub fn write_position(words: &[u32], out: &mut [u8]) -> Written {
    store(&Position::from_words(words.to_vec())?.encode(), out)
}

pub fn write_image(header: &Header, pixels: &[u8], out: &mut [u8]) -> Written {
    store(&Image::new(header.clone(), pixels)?.encode(), out)
}

pub fn write_bind(types: &[&[u8]], names: &[&[u8]], contents: &[&[u8]], out: &mut [u8]) -> Written {
    if types.len() != names.len() || names.len() != contents.len() {
        return Err(Fault::Bind);
    }
    let texts = types.iter().zip(names);
    let parts = texts
        .zip(contents)
        .map(|((type_text, name), data)| Part {
            type_text,
            name,
            data,
        })
        .collect::<Vec<_>>();
    store(&bind_of(&parts)?.encode(), out)
}

pub fn write_header(header: &header::Header, out: &mut [u8]) -> Written {
    store(&header.encode()?, out)
}

pub fn write_message(layout: Layout, message: &Message, out: &mut [u8]) -> Written {
    store(&message.encode(layout)?, out)
}

fn store(bytes: &[u8], out: &mut [u8]) -> Written {
    let front = out.get_mut(..bytes.len()).ok_or(Fault::Room)?;
    front.copy_from_slice(bytes);
    Ok(bytes.len())
}

#[cfg(test)]
mod tests {
    use super::{write_bind, write_message, write_position, write_transform};
    use crate::content::pose::Transform;
    use crate::fault::Fault;
    use crate::message::body::Layout;
    use crate::message::Message;

    #[test]
    fn bytes_beyond_keep_their_contents() {
        let mut out = [7; 50];
        let transform = Transform::default();
        assert_eq!(write_transform(&transform, &mut out), Ok(48));
        assert_eq!(out[47..], [0, 7, 7]);
        let room = &mut out[..47];
        assert_eq!(write_transform(&transform, room), Err(Fault::Room));
    }

    #[test]
    fn a_length_fault_comes_before_the_room() {
        assert_eq!(write_position(&[0; 4], &mut []), Err(Fault::Length));
        assert_eq!(write_position(&[0; 3], &mut []), Err(Fault::Room));
    }

    #[test]
    fn p8_written() {
        let mut out = [7; 80];
        let written = write_bind(&[b"TRANSFORM"], &[b"A"], &[&[0; 48]], &mut out);
        assert_eq!(written, Ok(74));
    }

    #[test]
    fn layout_then_children_then_room() {
        let child = [&[0][..]];
        let write = |type_text, names: &[&[u8]]| {
            let types: [&[u8]; 1] = [type_text];
            write_bind(&types, names, &child, &mut [])
        };
        assert_eq!(write(b"TRANSFORM", &[b"\x80"]), Err(Fault::Bind));
        assert_eq!(write(b"TRANSFORM", &[]), Err(Fault::Bind));
        assert_eq!(write(b"TRANSFORM", &[b"A"]), Err(Fault::Length));
        assert_eq!(write(b"STATUS", &[b"A"]), Err(Fault::Room));
    }

    #[test]
    fn a_message_of_no_body_takes_58_bytes() {
        let message = Message {
            version: 1,
            ..Message::default()
        };
        for layout in Layout::BOTH {
            let mut out = [7; 59];
            let room = &mut out[..57];
            assert_eq!(write_message(layout, &message, room), Err(Fault::Room));
            assert_eq!(out, [7; 59]);
            assert_eq!(write_message(layout, &message, &mut out), Ok(58));
            assert_eq!(out[..3], [0, 1, 0]);
            assert_eq!(out[57..], [0, 7]);
        }
    }
}
