//! A stream of TRANSFORM messages, read in one piece and pushed to a feed in fragments.

use crate::inputs;
use crate::timing::{alternate, timer};
use std::hint::black_box;

/// The stream has so many bytes, or a few less: whole messages.
const LENGTH: usize = 16 << 20;

/// More than a message has.
const ROOM: usize = 4096;

/// As many bytes as a packet of a local network carries, fewer than a message has, and one.
const FRAGMENTS: [usize; 3] = [1460, 100, 1];

pub fn print_costs() {
    let message = inputs::encoded(&inputs::plain(b"TRANSFORM", &inputs::bytes(48)));
    let stream = message.repeat(LENGTH / message.len());
    println!();
    println!(
        "stream of {} TRANSFORM messages, {} bytes",
        stream.len() / message.len(),
        stream.len()
    );
    for fragment in FRAGMENTS {
        print_cost(&message, &stream, fragment);
    }
}

fn print_cost(message: &[u8], stream: &[u8], fragment: usize) {
    let lengths = lengths(message.len(), stream.len(), fragment);
    let mut buffer = [0; ROOM];
    assert_eq!(read_whole(stream), stream.len());
    let (last, total) = linked::feed(inputs::LAYOUT, &lengths, stream, &mut buffer);
    assert_eq!(
        (last.kind, total),
        (1, stream.len()),
        "fragments of {fragment}"
    );
    assert_eq!(
        last.numbers,
        linked::read_fields(inputs::LAYOUT, message),
        "fragments of {fragment}"
    );
    let [whole, pushed] = alternate([
        timer(|| read_whole(black_box(stream))),
        timer(|| {
            let (lengths, stream) = (black_box(&lengths), black_box(stream));
            linked::feed(inputs::LAYOUT, lengths, stream, &mut buffer)
        }),
    ]);
    println!(
        "in fragments of {fragment:>4} bytes {:>6.1} ms, in one piece {:>5.1} ms, ratio {:.2}, least {:.2}",
        pushed.median / 1e6,
        whole.median / 1e6,
        pushed.median / whole.median,
        pushed.least / whole.least
    );
}

/// Every message of the stream; how many bytes they have.
fn read_whole(stream: &[u8]) -> usize {
    let mut at = 0;
    while at < stream.len() {
        let (number, step) = linked::read(inputs::LAYOUT, &stream[at..]);
        assert_eq!(number, 0);
        at += step;
    }
    at
}

/// How many bytes each push is offered: a fragment, or what the messages that ended in it have left
/// of it.
fn lengths(message: usize, stream: usize, fragment: usize) -> Vec<u32> {
    let mut lengths = Vec::new();
    let mut at = 0;
    while at < stream {
        let fragment_end = stream.min((at / fragment + 1) * fragment);
        let message_end = (at / message + 1) * message;
        lengths.push(u32::try_from(fragment_end - at).expect("a short fragment"));
        at = fragment_end.min(message_end);
    }
    lengths
}

#[cfg(test)]
mod tests {
    use super::lengths;

    #[test]
    fn what_is_left_of_a_fragment_is_offered_again() {
        assert_eq!(lengths(4, 8, 3), [3, 3, 2, 2]);
        assert_eq!(lengths(4, 8, 6), [6, 2, 2]);
        assert_eq!(lengths(4, 8, 1), [1; 8]);
        assert_eq!(lengths(4, 8, 9), [8, 4]);
    }
}
