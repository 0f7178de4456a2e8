//! Inputs in words, for one that was answered differently.

use super::Input;
use reference::feed::{Fragment, Pushes};
use reference::message::body::Layout;
use reference::vectors::case::digits;
use reference::vectors::samples::Sample;

impl Input {
    /// A line for each part, bytes in hexadecimal, of each part no more than so many.
    pub fn shown(&self, most: usize) -> Vec<String> {
        let line = |name: &str, bytes: &[u8]| shown_part(name, bytes, most);
        match self {
            Input::Bytes(bytes) => vec![line("bytes", bytes)],
            Input::Front(layout, stream) | Input::Stream(layout, stream) => {
                vec![shown_layout(*layout), line("stream", stream)]
            }
            Input::Content { type_text, content } => {
                vec![line("type", type_text), line("content", content)]
            }
            Input::Message {
                sample,
                room,
                first,
            } => shown_sample(sample, *room, *first, most),
            Input::Script { script, .. } => {
                let clock = format!("clock of the looks: {}", script.clock);
                vec![line("script", &script.bytes), clock]
            }
            Input::Feed(pushes) => shown_pushes(pushes, most),
        }
    }
}

fn shown_part(name: &str, bytes: &[u8], most: usize) -> String {
    let length = bytes.len();
    let rest = if length > most { ".." } else { "" };
    let digits = digits(&bytes[..length.min(most)]);
    format!("{name}, {length} bytes: {digits}{rest}")
}

fn shown_layout(layout: Layout) -> String {
    let word = match layout {
        Layout::New => "new",
        Layout::Old => "old",
    };
    format!("layout: {word}")
}

fn shown_sample(sample: &Sample, room: usize, first: u8, most: usize) -> Vec<String> {
    let Sample {
        layout,
        version,
        time_stamp,
        id,
        ..
    } = sample;
    let parts = [
        ("type", &sample.type_text),
        ("device name", &sample.device_name),
        ("further bytes", &sample.further),
        ("content", &sample.content),
        ("metadata", &sample.metadata),
    ];
    let numbers = format!("version {version}, time stamp {time_stamp}, id {id}");
    let buffer = format!("buffer of {room} bytes, which count up from {first}");
    let parts = parts.map(|(name, bytes)| shown_part(name, bytes, most));
    let first = [shown_layout(*layout), numbers, buffer];
    first.into_iter().chain(parts).collect()
}

fn shown_pushes(pushes: &Pushes, most: usize) -> Vec<String> {
    let Pushes {
        layout,
        room,
        fill,
        fragments,
    } = pushes;
    let opening = format!("opened over {room} bytes, all of them {fill}");
    let fragments = fragments.iter().map(|Fragment { room, bytes }| {
        let name = format!("fragment with a buffer of {room} bytes");
        shown_part(&name, bytes, most)
    });
    let first = [shown_layout(*layout), opening];
    first.into_iter().chain(fragments).collect()
}
