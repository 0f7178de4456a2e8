//! Samples that are not made by chance, put together once.

use reference::random::Random;
use reference::vectors::samples::Sample;
use reference::vectors::scripts::chances;
use reference::vectors::{bundles, contents, headers, images};
use reference::vectors::{message_writers, messages, metadata, streams};

pub struct Stock {
    /// Types and contents, on both sides of each rule.
    pub contents: Vec<(Vec<u8>, Vec<u8>)>,
    /// Types with a rule and types that look like them, not all of which fit a field.
    pub alike: Vec<(Vec<u8>, Vec<u8>)>,
    pub sections: Vec<Vec<u8>>,
    /// Types and device names that can and cannot be written.
    pub texts: Vec<[&'static [u8]; 2]>,
    /// What a writer is given, sound or with a fault.
    pub written: Vec<Sample>,
    /// Messages for the panel: such that no tile shows, and such that are not clean.
    pub others: Vec<Vec<u8>>,
    /// The messages that the released library wrote.
    pub captured: Vec<&'static [u8]>,
}

impl Stock {
    pub fn new() -> Self {
        let written = [message_writers::samples(), messages::contents()];
        let captured = streams::CAPTURES.into_iter();
        let marked = chances::marked_messages(&mut Random::new(1));
        Stock {
            contents: ruled(),
            alike: contents::exact_texts(),
            sections: metadata::samples(),
            texts: headers::texts_written(),
            written: written.concat(),
            others: [chances::other_messages(), marked].concat(),
            captured: captured.flat_map(streams::messages).collect(),
        }
    }
}

fn ruled() -> Vec<(Vec<u8>, Vec<u8>)> {
    let images = images::samples().into_iter();
    let images = images.map(|image| (b"IMAGE".to_vec(), image.bytes()));
    let binds = bundles::samples().into_iter();
    let binds = binds.map(|bind| (b"BIND".to_vec(), bind));
    images.chain(binds).collect()
}
