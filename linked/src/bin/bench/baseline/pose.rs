//! TRANSFORM and POSITION contents.

pub fn transform_fault(content: &[u8]) -> u8 {
    if content.len() == 48 {
        0
    } else {
        8
    }
}

pub fn position_fault(content: &[u8]) -> u8 {
    match content.len() {
        12 | 24 | 28 => 0,
        _ => 8,
    }
}
