//! A walk through the children of a BIND by a cursor.

use super::bind_layout::{after_block, after_headers, count, data_of, headers, size_of, type_of};
use super::content::content_check;
use super::fields::{rest, text_len};

#[derive(Clone, Copy, Default)]
pub struct Cursor {
    pub number: u8,
    pub left: usize,
    pub type_at: usize,
    pub type_len: usize,
    pub name_at: usize,
    pub name_len: usize,
    pub at: usize,
    pub len: usize,
    pub clean: bool,
}

fn child_at(
    content: &[u8],
    headers: &[u8],
    names: &[u8],
    blocks: &[u8],
    left: usize,
    clean: bool,
) -> Cursor {
    if left == 0 {
        return Cursor {
            clean,
            ..Cursor::default()
        };
    }
    let place = |end: &[u8]| content.len() - end.len();
    Cursor {
        number: 0,
        left,
        type_at: place(headers),
        type_len: type_of(headers).len(),
        name_at: place(names),
        name_len: text_len(names),
        at: place(blocks),
        len: size_of(headers),
        clean,
    }
}

pub fn first_child(content: &[u8]) -> Cursor {
    let answer = content_check(b"BIND", content);
    if answer.number != 0 {
        return Cursor {
            number: answer.number,
            ..Cursor::default()
        };
    }
    child_at(
        content,
        headers(content),
        rest(after_headers(content), 2),
        data_of(content),
        count(content),
        answer.clean,
    )
}

pub fn next_child(content: &[u8], cursor: Cursor) -> Cursor {
    if cursor.number != 0 || cursor.left == 0 {
        return cursor;
    }
    let names = rest(content, cursor.name_at);
    child_at(
        content,
        rest(rest(content, cursor.type_at), 20),
        rest(rest(names, cursor.name_len), 1),
        after_block(rest(content, cursor.at), cursor.len),
        cursor.left - 1,
        cursor.clean,
    )
}
