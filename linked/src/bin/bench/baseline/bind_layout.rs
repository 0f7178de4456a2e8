//! BIND contents: their parts, and the check of their layout.

use super::fields::{
    accepted, all_zero, be16, be64, first, is_text, part, past_text, read_field, refusal, rest,
    text_len, text_of, Checked,
};

// ---- parts

pub fn count(content: &[u8]) -> usize {
    usize::from(be16(content, 0))
}

pub fn headers(content: &[u8]) -> &[u8] {
    rest(content, 2)
}

pub fn after_headers(content: &[u8]) -> &[u8] {
    rest(content, 2 + 20 * count(content))
}

fn table_of(content: &[u8]) -> &[u8] {
    let after = after_headers(content);
    part(after, 2, usize::from(be16(after, 0)))
}

pub fn data_of(content: &[u8]) -> &[u8] {
    let after = after_headers(content);
    rest(after, 2 + usize::from(be16(after, 0)))
}

pub fn type_of(headers: &[u8]) -> &[u8] {
    text_of(first(headers, 12))
}

pub fn size_of(headers: &[u8]) -> usize {
    be64(headers, 12) as usize
}

pub fn after_block(blocks: &[u8], n: usize) -> &[u8] {
    rest(rest(blocks, n), n % 2)
}

// ---- layout

fn types_check(mut headers: &[u8], n: usize) -> Checked {
    let mut clean = true;
    for _ in 0..n {
        let field = read_field(first(headers, 12));
        if !field.ok {
            return refusal(10);
        }
        clean &= field.clean;
        headers = rest(headers, 20);
    }
    accepted(clean)
}

fn name_ok(table: &[u8]) -> bool {
    text_len(table) < table.len() && is_text(text_of(table))
}

fn names_ok(mut table: &[u8], n: usize) -> bool {
    for _ in 0..n {
        if !name_ok(table) {
            return false;
        }
        table = past_text(table);
    }
    table.len() <= 1 && all_zero(table)
}

fn table_ok(table: &[u8], n: usize) -> bool {
    table.len().is_multiple_of(2) && names_ok(table, n)
}

fn pad_ok(blocks: &[u8], p: usize) -> bool {
    p <= blocks.len() && all_zero(first(blocks, p))
}

fn block_ok(blocks: &[u8], n: usize) -> bool {
    n <= blocks.len() && pad_ok(rest(blocks, n), n % 2)
}

fn data_ok(mut headers: &[u8], mut blocks: &[u8], n: usize) -> bool {
    for _ in 0..n {
        let size = size_of(headers);
        if !block_ok(blocks, size) {
            return false;
        }
        headers = rest(headers, 20);
        blocks = after_block(blocks, size);
    }
    blocks.is_empty()
}

pub fn layout_check(content: &[u8]) -> Checked {
    let n = count(content);
    let table_size = usize::from(be16(after_headers(content), 0));
    if content.len() < 4 + 20 * n + table_size {
        return refusal(10);
    }
    let types = types_check(headers(content), n);
    if types.number != 0 {
        return types;
    }
    if table_ok(table_of(content), n) && data_ok(headers(content), data_of(content), n) {
        accepted(types.clean)
    } else {
        refusal(10)
    }
}
