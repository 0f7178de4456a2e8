//! Calls and messages in few words.

use super::Script;
use crate::message::body::Layout;
use crate::panel::Call;
use crate::vectors::samples::Sample;

/// Types and names that tiles may have.
pub const TRANSFORM: &[u8] = b"TRANSFORM";
pub const POSITION: &[u8] = b"POSITION";
pub const ARM: &[u8] = b"Arm";
pub const NEEDLE: &[u8] = b"Needle";

pub fn add(type_text: &[u8], name: &[u8], hold_time: u64) -> Call {
    Call::Add {
        type_text: type_text.to_vec(),
        name: name.to_vec(),
        hold_time,
    }
}

pub fn up_in(layout: Layout, clock: u64) -> Call {
    Call::LinkUp { layout, clock }
}

pub fn up(clock: u64) -> Call {
    up_in(Layout::New, clock)
}

pub fn down(clock: u64) -> Call {
    Call::LinkDown { clock }
}

pub fn send(clock: u64, bytes: &[u8]) -> Call {
    let bytes = bytes.to_vec();
    Call::Message { clock, bytes }
}

pub fn look(tile: u64, clock: u64) -> Call {
    Call::Look { tile, clock }
}

/// A message of this content.
pub fn message(type_text: &[u8], device_name: &[u8], content: &[u8]) -> Sample {
    Sample {
        device_name: device_name.to_vec(),
        ..Sample::plain(type_text, content)
    }
}

/// The Arm's TRANSFORM whose bytes all have this value.
pub fn arm(value: u8) -> Vec<u8> {
    message(TRANSFORM, ARM, &[value; 48]).bytes()
}

/// The Needle's POSITION of so many bytes, all of this value.
pub fn needle(length: usize, value: u8) -> Vec<u8> {
    message(POSITION, NEEDLE, &vec![value; length]).bytes()
}

/// The first calls of P10: tile 0 shows the Arm for 500 ms, the link is up since 1000, and a pose
/// of sevens counted at 1200.
pub fn start() -> [Call; 3] {
    start_in(Layout::New)
}

/// The same, the link up naming a layout.
fn start_in(layout: Layout) -> [Call; 3] {
    let link = up_in(layout, 1000);
    [add(TRANSFORM, ARM, 500), link, send(1200, &arm(7))]
}

/// What those are answered.
#[cfg(test)]
pub const START: &str = "added 0, accepted, accepted";

/// These calls after those, and then a look at this clock.
pub fn after_start(calls: &[Call], clock: u64) -> Script {
    after_start_in(Layout::New, calls, clock)
}

pub fn after_start_in(layout: Layout, calls: &[Call], clock: u64) -> Script {
    Script::of(&[&start_in(layout), calls].concat(), clock)
}
