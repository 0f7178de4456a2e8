//! The proved library's algorithms in Rust, function by function: the same checks in the same
//! order, and the same passes over the bytes. A module has the name of the crate that it follows,
//! which says what its functions answer.

pub mod bind_cursor;
pub mod bind_layout;
pub mod cleaning;
pub mod content;
pub mod crc64;
pub mod fields;
pub mod header;
pub mod image;
pub mod message;
pub mod metadata;
pub mod panel;
pub mod pose;
pub mod replay;
