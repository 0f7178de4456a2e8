//! bench: the proved library against the same algorithms in Rust (`baseline`), in one run and on
//! the same inputs. Both sides must give equal answers before they are timed. `scripts/bench`
//! builds and runs it.

#![forbid(unsafe_code)]

mod baseline;
mod feed;
mod inputs;
mod panel;
mod rust;
mod table;
mod timing;

use reference::message::Message;
use std::hint::black_box;
use table::{print_rows, Per, Row};
use timing::{alternate, timer};

fn main() {
    println!(
        "Nanoseconds are medians of {} samples of at least {} ms, 'least' is the shortest sample.",
        timing::SAMPLES,
        timing::SAMPLE_TIME.as_millis()
    );
    println!("A ratio is ours / Rust.");
    let lengths = [0, 1, 16, 48, 58, 256, 4 << 10, 64 << 10, 1 << 20, 16 << 20];
    print_rows("CRC, bytes", Per::Byte, &lengths.map(crc));
    print_rows("reader, message", Per::Byte, &messages());
    let counts = [1, 10, 100, 1_000, 10_000, 65_534];
    let empty = counts.map(|n| bind(n, b"STATUS", &[]));
    print_rows("BIND of empty children", Per::Child, &empty);
    let transforms = counts.map(|n| bind(n, b"TRANSFORM", &inputs::bytes(48)));
    print_rows("BIND of TRANSFORMs", Per::Child, &transforms);
    print_rows("walk, empty children", Per::Child, &counts.map(walk));
    print_rows("writer, message", Per::Byte, &[transform_writer()]);
    let written = counts.map(bind_writer);
    print_rows("writer, BIND of TRANSFORMs", Per::Child, &written);
    panel::print_costs();
    feed::print_costs();
}

fn crc(n: usize) -> Row {
    let bytes = inputs::bytes(n);
    assert_eq!(linked::crc64(&bytes), rust::crc64(&bytes), "{n} bytes");
    let times = alternate([
        timer(|| linked::crc64(black_box(&bytes))),
        timer(|| rust::crc64(black_box(&bytes))),
    ]);
    Row::new(&n.to_string(), n, times)
}

fn messages() -> [Row; 9] {
    let status = inputs::encoded(&inputs::plain(b"GET_STATUS", &[]));
    let position = inputs::encoded(&inputs::plain(b"POSITION", &inputs::bytes(28)));
    let transform = inputs::encoded(&inputs::plain(b"TRANSFORM", &inputs::bytes(48)));
    [
        reader("empty body", 0, &status),
        reader("POSITION", 0, &position),
        reader("TRANSFORM", 0, &transform),
        reader("TRANSFORM, V 2, metadata", 0, &inputs::with_metadata()),
        reader("IMAGE, body 64 KiB", 0, &inputs::image(256)),
        reader("IMAGE, body 1 MiB", 0, &inputs::image(1024)),
        reader("IMAGE, body 16 MiB", 0, &inputs::image(4096)),
        reader("refused, 57 bytes", 1, &transform[..57]),
        reader("refused, CRC", 5, &inputs::with_bad_crc(&transform)),
    ]
}

/// A stream that is answered by this number.
fn reader(name: &str, number: u8, stream: &[u8]) -> Row {
    let layout = inputs::LAYOUT;
    let fields = linked::read_fields(layout, stream);
    assert_eq!(fields[0], number.into(), "{name}");
    assert_eq!(fields, rust::read_fields(layout, stream), "{name}");
    let times = alternate([
        timer(|| linked::read(black_box(layout), black_box(stream))),
        timer(|| rust::read(black_box(layout), black_box(stream))),
    ]);
    Row::new(name, stream.len(), times)
}

fn bind(n: usize, type_text: &[u8], data: &[u8]) -> Row {
    let content = inputs::bind(n, type_text, data);
    assert_eq!(linked::content_fault(b"BIND", &content), 0, "{n} children");
    assert_eq!(rust::content_fault(b"BIND", &content), 0, "{n} children");
    let times = alternate([
        timer(|| linked::content_fault(b"BIND", black_box(&content))),
        timer(|| rust::content_fault(b"BIND", black_box(&content))),
    ]);
    Row::new(&n.to_string(), n, times)
}

/// From the first child to the end. On our side a cursor goes over as 72 bytes, each time both ways.
fn walk(n: usize) -> Row {
    let content = inputs::bind(n, b"STATUS", &[]);
    let ours = || {
        let mut cursor = linked::first_child(black_box(&content));
        let mut sum = 0;
        while cursor[1] != 0 {
            sum += cursor[2..8].iter().sum::<u64>();
            cursor = linked::next_child(black_box(&content), cursor);
        }
        sum
    };
    let rust = || {
        let mut cursor = rust::first_child(black_box(&content));
        let mut sum = 0;
        while cursor.left != 0 {
            let places = cursor.type_at + cursor.name_at + cursor.at;
            sum += (places + cursor.type_len + cursor.name_len + cursor.len) as u64;
            cursor = rust::next_child(black_box(&content), cursor);
        }
        sum
    };
    assert_eq!(ours(), rust(), "{n} children");
    Row::new(&n.to_string(), n, alternate([timer(ours), timer(rust)]))
}

fn transform_writer() -> Row {
    let content = inputs::bytes(48);
    let message = inputs::plain(b"TRANSFORM", &content);
    let length = inputs::encoded(&message).len();
    writer("TRANSFORM", &message, length)
}

/// A BIND whose CTYPEs are not clean.
fn bind_writer(n: usize) -> Row {
    let content = inputs::unclean_bind(n, b"TRANSFORM", &inputs::bytes(48));
    writer(&n.to_string(), &inputs::plain(b"BIND", &content), n)
}

fn writer(name: &str, message: &Message, per: usize) -> Row {
    let length = inputs::encoded(message).len();
    let layout = inputs::LAYOUT;
    let (mut ours, mut rust) = (vec![0; length], vec![0; length]);
    let written = (0, length);
    assert_eq!(linked::write(layout, message, &mut ours), written, "{name}");
    assert_eq!(rust::write(layout, message, &mut rust), written, "{name}");
    assert_eq!(ours, rust, "{name}");
    let times = alternate([
        timer(|| linked::write(black_box(layout), black_box(message), black_box(&mut ours))),
        timer(|| rust::write(black_box(layout), black_box(message), black_box(&mut rust))),
    ]);
    Row::new(name, per, times)
}
