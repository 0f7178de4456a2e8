//! The independent second implementation, written from the customer's papers alone, whose rules
//! docs/RULES.md numbers; it shares no code with the crates. It makes the vector files, and stands
//! beside the proved library in `linked/`.

pub mod content;
pub mod crc;
mod cursor;
pub mod fault;
pub mod feed;
mod listing;
mod lookup;
pub mod message;
pub mod panel;
pub mod random;
pub mod script;
mod text;
pub mod vectors;
pub mod walk;
pub mod writer;
