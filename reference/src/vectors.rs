//! The vector files: what the programs `vectors`, `listing`, `panel_scripts` and `feed_streams` are
//! given, and what they must write.

pub mod bundles;
pub mod case;
mod children;
pub mod contents;
mod crc;
mod cursors;
mod feeds;
pub mod headers;
pub mod images;
pub mod message_writers;
pub mod messages;
pub mod metadata;
mod out;
pub mod patched;
pub mod rests;
pub mod samples;
pub mod scripts;
pub mod streams;
pub mod trees;
mod writers;

use crate::listing;

/// A file, by its path from the repository's root.
pub struct VectorFile {
    pub path: &'static str,
    pub bytes: Vec<u8>,
}

/// The inputs and the outputs of the programs `vectors`, topic by topic, `listing`, `panel_scripts`
/// and `feed_streams`, and a stream of the new layout with its listing.
pub fn files() -> [VectorFile; 10] {
    let topics = [
        crc::cases(),
        contents::cases(),
        children::cases(),
        writers::cases(),
        headers::cases(),
        metadata::cases(),
        messages::cases(),
        streams::cases(),
        message_writers::cases(),
        rests::cases(),
        cursors::cases(),
    ];
    let cases = topics.concat();
    let sample = streams::listing_input();
    let table = listing::table(&sample).into_bytes();
    let stream = streams::new_layout();
    let listing = listing::table(&stream).into_bytes();
    let scripts = scripts::scripts();
    let feeds = feeds::feeds();
    let file = |path, bytes| VectorFile { path, bytes };
    [
        file("crates/vectors/stdin", case::input(&cases)),
        file("crates/vectors/stdout", case::output(&cases)),
        file("crates/listing/stdin", sample),
        file("crates/listing/stdout", table),
        file("crates/panel_scripts/stdin", scripts::input(&scripts)),
        file("crates/panel_scripts/stdout", scripts::output(&scripts)),
        file("crates/feed_streams/stdin", feeds::input(&feeds)),
        file("crates/feed_streams/stdout", feeds::output(&feeds)),
        file("samples/new-layout.igtl", stream),
        file("samples/new-layout.txt", listing),
    ]
}

#[cfg(test)]
mod tests {
    use super::files;

    /// As many bytes as the programs `vectors`, `panel_scripts` and `feed_streams` read.
    const LONGEST: [usize; 3] = [2_097_152, 1_376_256, 1_376_256];

    #[test]
    fn the_inputs_are_read_whole() {
        let [vectors, _, _, _, scripts, _, feeds, _, _, _] = files();
        let lengths = [vectors, scripts, feeds].map(|file| file.bytes.len());
        assert!(lengths
            .iter()
            .zip(&LONGEST)
            .all(|(length, longest)| length <= longest));
    }
}
