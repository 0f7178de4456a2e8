//! Contents, judged by their type: one dispatch, and BINDs to their innermost children.

use super::fields::{accepted, first, refusal, rest, Checked};
use super::{bind_layout, image, pose};

enum Kind {
    Transform,
    Position,
    Image,
    Bind,
    Other,
}

fn kind_of(text: &[u8]) -> Kind {
    match text {
        b"TRANSFORM" => Kind::Transform,
        b"POSITION" => Kind::Position,
        b"IMAGE" => Kind::Image,
        b"BIND" => Kind::Bind,
        _ => Kind::Other,
    }
}

pub fn is_bind(text: &[u8]) -> bool {
    matches!(kind_of(text), Kind::Bind)
}

/// A content that has no text.
fn without_text(number: u8) -> Checked {
    if number == 0 {
        accepted(true)
    } else {
        refusal(number)
    }
}

fn nested_check(text: &[u8], content: &[u8], levels: u32) -> Checked {
    match kind_of(text) {
        Kind::Transform => without_text(pose::transform_fault(content)),
        Kind::Position => without_text(pose::position_fault(content)),
        Kind::Image => without_text(image::image_fault(content)),
        Kind::Bind => nested_bind_check(content, levels),
        Kind::Other => accepted(true),
    }
}

fn nested_bind_check(content: &[u8], levels: u32) -> Checked {
    if levels == 0 {
        return refusal(11);
    }
    let layout = bind_layout::layout_check(content);
    if layout.number != 0 {
        return layout;
    }
    let mut clean = layout.clean;
    let mut headers = bind_layout::headers(content);
    let mut data = bind_layout::data_of(content);
    for _ in 0..bind_layout::count(content) {
        let size = bind_layout::size_of(headers);
        let child = nested_check(bind_layout::type_of(headers), first(data, size), levels - 1);
        if child.number != 0 {
            return child;
        }
        clean &= child.clean;
        headers = rest(headers, 20);
        data = bind_layout::after_block(data, size);
    }
    accepted(clean)
}

pub fn content_check(text: &[u8], content: &[u8]) -> Checked {
    nested_check(text, content, 4)
}

pub fn content_fault(text: &[u8], content: &[u8]) -> u8 {
    content_check(text, content).number
}

#[cfg(test)]
mod tests {
    use super::content_fault;

    #[test]
    fn binds() {
        assert_eq!(content_fault(b"BIND", &[0, 0, 0, 0]), 0);
        assert_eq!(content_fault(b"BIND", &[0, 0, 0, 1]), 10);
        assert_eq!(content_fault(b"BIND", &[]), 10);
        assert_eq!(content_fault(b"STRING", &[]), 0);
    }
}
