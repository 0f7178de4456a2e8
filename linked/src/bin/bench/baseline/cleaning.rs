//! Contents written clean: zeros after the text of each CTYPE field, at all levels. The parts of a
//! BIND are put in order.

use super::bind_layout;
use super::content::is_bind;
use super::fields::{be16, first, part, put, put_text12, rest};

fn put_headers(headers: &[u8], count: usize, at: usize, out: &mut [u8]) {
    let mut left = headers;
    for place in (at..).step_by(20).take(count) {
        put_text12(bind_layout::type_of(left), place, out);
        put(part(left, 12, 8), place + 12, out);
        left = rest(left, 20);
    }
}

/// What stands before the children's data.
fn put_front(content: &[u8], at: usize, out: &mut [u8]) {
    let count = bind_layout::count(content);
    let after = bind_layout::after_headers(content);
    put(first(content, 2), at, out);
    put_headers(bind_layout::headers(content), count, at + 2, out);
    let size = 2 + usize::from(be16(after, 0));
    put(first(after, size), at + 2 + 20 * count, out);
}

fn put_bind(content: &[u8], levels: u32, at: usize, out: &mut [u8]) {
    if levels == 0 || bind_layout::layout_check(content).number != 0 {
        return put(content, at, out);
    }
    put_front(content, at, out);
    let mut headers = bind_layout::headers(content);
    let mut data = bind_layout::data_of(content);
    for _ in 0..bind_layout::count(content) {
        let size = bind_layout::size_of(headers);
        let to = at + content.len() - data.len();
        let child = first(data, size);
        put_content(bind_layout::type_of(headers), child, levels - 1, to, out);
        put(part(data, size, size % 2), to + child.len(), out);
        headers = rest(headers, 20);
        data = bind_layout::after_block(data, size);
    }
}

fn put_content(text: &[u8], content: &[u8], levels: u32, at: usize, out: &mut [u8]) {
    if is_bind(text) {
        put_bind(content, levels, at, out);
    } else {
        put(content, at, out);
    }
}

/// Puts a content into a buffer that has room for it.
pub fn put_clean(text: &[u8], content: &[u8], at: usize, out: &mut [u8]) {
    put_content(text, content, 4, at, out);
}

#[cfg(test)]
mod tests {
    use super::put_clean;
    use crate::inputs;
    use reference::content::cleaned;

    #[test]
    fn the_types_of_all_levels() {
        let inner = inputs::unclean_bind(3, b"STATUS", b"odd");
        let content = inputs::unclean_bind(2, b"BIND", &inner);
        let mut out = vec![0xAA; content.len() + 2];
        put_clean(b"BIND", &content, 1, &mut out);
        let clean = cleaned(b"BIND", &content).expect("a sound BIND");
        assert_ne!(clean, content);
        assert_eq!(out, [&[0xAA][..], &clean, &[0xAA]].concat());
        put_clean(b"BINDX", &content, 0, &mut out);
        assert_eq!(out[..content.len()], content);
    }
}
