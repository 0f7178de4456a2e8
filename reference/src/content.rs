//! Contents by their type (rule 4.1): a tree of values, made from bytes and turned into bytes.

pub mod bind;
pub mod image;
pub mod pose;

use crate::fault::Fault;
use bind::Part;
use image::Image;
use pose::{Position, Transform};

/// The level of the outermost BIND, and the deepest one (rule 4.15).
const OUTERMOST: u32 = 1;
const DEEPEST: u32 = 4;

#[derive(Clone, Debug, PartialEq, Eq)]
pub enum Content {
    Transform(Transform),
    Position(Position),
    Image(Image),
    Bind(Vec<Child>),
    /// Of any other type.
    Opaque(Vec<u8>),
}

#[derive(Clone, Debug, PartialEq, Eq)]
pub struct Child {
    pub type_text: Vec<u8>,
    pub name: Vec<u8>,
    pub content: Content,
}

/// The content of a message.
pub fn parse(type_text: &[u8], bytes: &[u8]) -> Result<Content, Fault> {
    parse_at(OUTERMOST, type_text, bytes)
}

/// The content of a child of the outermost BIND.
pub fn parse_nested(type_text: &[u8], bytes: &[u8]) -> Result<Content, Fault> {
    parse_at(OUTERMOST + 1, type_text, bytes)
}

/// The bytes of a message's content with zeros after the text in each CTYPE field, at all levels:
/// it is put together again.
pub fn cleaned(type_text: &[u8], bytes: &[u8]) -> Result<Vec<u8>, Fault> {
    parse(type_text, bytes).map(|content| content.encode())
}

/// Whether a message's content is accepted and has such zeros already.
pub fn is_clean(type_text: &[u8], bytes: &[u8]) -> bool {
    cleaned(type_text, bytes).is_ok_and(|cleaned| cleaned == bytes)
}

/// The BIND of these children, as a message's content.
pub fn bind_of(parts: &[Part]) -> Result<Content, Fault> {
    bind::join(parts).ok_or(Fault::Bind)?;
    parse_children(OUTERMOST, parts).map(Content::Bind)
}

/// The level is that of a BIND in this place.
fn parse_at(level: u32, type_text: &[u8], bytes: &[u8]) -> Result<Content, Fault> {
    match type_text {
        b"TRANSFORM" => Transform::parse(bytes).map(Content::Transform),
        b"POSITION" => Position::parse(bytes).map(Content::Position),
        b"IMAGE" => Image::parse(bytes).map(Content::Image),
        b"BIND" => parse_bind(level, bytes).map(Content::Bind),
        _ => Ok(Content::Opaque(bytes.to_vec())),
    }
}

fn parse_bind(level: u32, bytes: &[u8]) -> Result<Vec<Child>, Fault> {
    if level > DEEPEST {
        return Err(Fault::Depth);
    }
    let parts = bind::split(bytes).ok_or(Fault::Bind)?;
    parse_children(level, &parts)
}

/// The children of a BIND at this level.
fn parse_children(level: u32, parts: &[Part]) -> Result<Vec<Child>, Fault> {
    let children = parts.iter().map(|part| parse_child(level + 1, part));
    children.collect()
}

fn parse_child(level: u32, part: &Part) -> Result<Child, Fault> {
    Ok(Child {
        type_text: part.type_text.to_vec(),
        name: part.name.to_vec(),
        content: parse_at(level, part.type_text, part.data)?,
    })
}

impl Content {
    /// The bytes of the content, with zeros after each text of a field; a BIND of any depth.
    ///
    /// # Panics
    /// Where the children of a BIND do not fit its fields.
    pub fn encode(&self) -> Vec<u8> {
        match self {
            Content::Transform(transform) => transform.encode(),
            Content::Position(position) => position.encode(),
            Content::Image(image) => image.encode(),
            Content::Bind(children) => encode_bind(children),
            Content::Opaque(bytes) => bytes.clone(),
        }
    }
}

fn encode_bind(children: &[Child]) -> Vec<u8> {
    let data: Vec<Vec<u8>> = children
        .iter()
        .map(|child| child.content.encode())
        .collect();
    let parts = children.iter().zip(&data).map(|(child, data)| Part {
        type_text: &child.type_text,
        name: &child.name,
        data,
    });
    bind::join(&parts.collect::<Vec<_>>()).expect("the children fit the fields of a BIND")
}

#[cfg(test)]
mod tests {
    use super::{parse, parse_nested, Child, Content};
    use crate::fault::Fault;

    fn child(type_text: &[u8], content: Content) -> Child {
        Child {
            type_text: type_text.to_vec(),
            name: b"A".to_vec(),
            content,
        }
    }

    fn opaque(length: usize) -> Content {
        Content::Opaque(vec![1; length])
    }

    /// A BIND with so many levels, the last one without children.
    fn nest(levels: u32) -> Content {
        (1..levels).fold(Content::Bind(Vec::new()), |inner, _| {
            Content::Bind(vec![child(b"BIND", inner)])
        })
    }

    #[test]
    fn p8_accepted() {
        let transform = child(b"TRANSFORM", opaque(48));
        let content = Content::Bind(vec![transform]).encode();
        assert_eq!(content.len(), 74);
        assert!(parse(b"BIND", &content).is_ok());
    }

    #[test]
    fn types_match_on_the_exact_text() {
        for type_text in [&b"transform"[..], b"GET_TRANSFORM", b"TRANSFORM\0", b""] {
            let content = Content::Opaque(vec![7]);
            assert_eq!(parse(type_text, &[7]), Ok(content));
        }
        assert_eq!(parse(b"TRANSFORM", &[7]), Err(Fault::Length));
    }

    #[test]
    fn level_4_is_the_deepest() {
        for levels in 1..=4 {
            assert_eq!(parse(b"BIND", &nest(levels).encode()), Ok(nest(levels)));
        }
        let five = nest(5).encode();
        assert_eq!(parse(b"BIND", &five), Err(Fault::Depth));
        assert!(parse_nested(b"BIND", &nest(3).encode()).is_ok());
        let four = nest(4).encode();
        assert_eq!(parse_nested(b"BIND", &four), Err(Fault::Depth));
    }

    #[test]
    fn a_layout_fault_comes_before_the_children() {
        let bad = child(b"TRANSFORM", opaque(1));
        let content = Content::Bind(vec![bad]).encode();
        assert_eq!(parse(b"BIND", &content), Err(Fault::Length));
        let cut = &content[..content.len() - 1];
        assert_eq!(parse(b"BIND", cut), Err(Fault::Bind));
    }

    #[test]
    fn children_are_judged_in_order_each_with_all_below_it() {
        let inner = Content::Bind(vec![child(b"IMAGE", opaque(1))]);
        let children = vec![child(b"BIND", inner), child(b"POSITION", opaque(1))];
        let content = Content::Bind(children).encode();
        assert_eq!(parse(b"BIND", &content), Err(Fault::Image));
    }
}
