//! One input given to the proved library and to the reference implementation.

#![forbid(unsafe_code)]

mod feed;
mod panel;

use crate::inputs::Input;
use crate::FIELDS;
use reference::content::parse;
use reference::crc::crc;
use reference::fault::number;
use reference::message::body::Layout;
use reference::message::read;
use reference::vectors::samples::Sample;
use reference::walk::{next, walk, Step};
use reference::writer::write_message;
use std::fmt::{self, Debug, Display, Formatter};

/// An answer without what goes with it, to be counted.
#[derive(Clone, Copy, Debug, PartialEq, Eq, PartialOrd, Ord)]
pub enum Label {
    /// A number of rule 5.1.
    Number(u8),
    /// A CRC, a message that is accepted and not clean, a child that a walk comes to, which answer of
    /// the panel that is no refusal, or that a feed has none yet.
    Word(&'static str),
}

impl Label {
    /// Of the answer to a message, by its numbers.
    fn of_message(numbers: &[u64; FIELDS]) -> Self {
        match (numbers[0], numbers[FIELDS - 1]) {
            (0, 0) => Label::Word("not clean"),
            (number, _) => Label::Number(u8::try_from(number).expect("a number")),
        }
    }
}

impl Display for Label {
    fn fmt(&self, formatter: &mut Formatter) -> fmt::Result {
        match self {
            Label::Number(number) => write!(formatter, "{number}"),
            Label::Word(word) => formatter.write_str(word),
        }
    }
}

/// What differs, and both answers.
#[derive(Debug)]
pub struct Difference {
    pub what: String,
    pub proved: String,
    pub reference: String,
}

/// The answers, or the first that is not the same from both.
pub fn compare(input: &Input) -> Result<Vec<Label>, Difference> {
    match input {
        Input::Bytes(bytes) => compare_crc(bytes),
        Input::Front(layout, stream) => {
            compare_front(*layout, stream, 0).map(|(label, _)| vec![label])
        }
        Input::Stream(layout, stream) => compare_stream(*layout, stream),
        Input::Content { type_text, content } => compare_content(type_text, content),
        Input::Message {
            sample,
            room,
            first,
        } => compare_written(sample, *room, *first),
        Input::Script {
            script,
            places,
            tiles,
        } => panel::compare_script(script, places, tiles),
        Input::Feed(pushes) => feed::compare_feed(pushes),
    }
}

fn same<T: PartialEq + Debug>(
    what: impl Display,
    proved: T,
    reference: T,
) -> Result<(), Difference> {
    same_as(what, proved, reference, |answer| format!("{answer:?}"))
}

/// The same, with the text of an answer.
fn same_as<T: PartialEq>(
    what: impl Display,
    proved: T,
    reference: T,
    text: impl Fn(&T) -> String,
) -> Result<(), Difference> {
    if proved == reference {
        return Ok(());
    }
    Err(Difference {
        what: what.to_string(),
        proved: text(&proved),
        reference: text(&reference),
    })
}

fn compare_crc(bytes: &[u8]) -> Result<Vec<Label>, Difference> {
    same("the CRC", crate::crc64(bytes), crc(bytes))?;
    Ok(vec![Label::Word("CRC")])
}

/// The answer to the stream from a place on, and the step.
fn compare_front(layout: Layout, stream: &[u8], at: usize) -> Result<(Label, usize), Difference> {
    let stream = &stream[at..];
    let reading = read(layout, stream);
    let brief = (number(&reading.message), reading.step);
    let of_read = format_args!("number and step at {at}");
    same(of_read, crate::read(layout, stream), brief)?;
    let of_fields = format_args!("the fourteen numbers at {at}");
    let fields = crate::read_fields(layout, stream);
    same(of_fields, fields, reading.numbers())?;
    Ok((Label::of_message(&fields), reading.step))
}

/// The answers up to the first step of 0.
fn compare_stream(layout: Layout, stream: &[u8]) -> Result<Vec<Label>, Difference> {
    let mut labels = Vec::new();
    let mut at = 0;
    loop {
        let (label, step) = compare_front(layout, stream, at)?;
        labels.push(label);
        if step == 0 {
            return Ok(labels);
        }
        at += step;
    }
}

fn compare_content(type_text: &[u8], content: &[u8]) -> Result<Vec<Label>, Difference> {
    let answer = number(&parse(type_text, content));
    let proved = crate::content_fault(type_text, content);
    same("the content's number", proved, answer)?;
    let children = compare_walk(content)?;
    let labels = [Label::Number(answer)].into_iter();
    Ok(labels.chain(vec![Label::Word("child"); children]).collect())
}

/// The cursor at each child of the content as that of a BIND, those past the end, and each of them
/// on half of the content. How many children there are.
fn compare_walk(content: &[u8]) -> Result<usize, Difference> {
    let steps = walk(content);
    let mut cursor = crate::first_child(content);
    for (place, step) in steps.iter().enumerate() {
        same(format_args!("cursor {place}"), cursor, step.numbers())?;
        let half = &content[..content.len() / 2];
        let on_half = crate::next_child(half, cursor);
        let of_half = format_args!("the cursor after {place} on half of the content");
        same(of_half, on_half, next(half, *step).numbers())?;
        cursor = crate::next_child(content, cursor);
    }
    let end = steps.last().map(Step::numbers).expect("a last step");
    same("the cursor after the last", cursor, end)?;
    Ok(steps.len() - 1)
}

/// The answer in the sample's layout, and the whole buffer after it.
fn compare_written(sample: &Sample, room: usize, first: u8) -> Result<Vec<Label>, Difference> {
    let (layout, message) = (sample.layout, sample.message());
    let mut buffer: Vec<u8> = (0..=255).cycle().skip(first.into()).take(room).collect();
    let mut proved_buffer = buffer.clone();
    let written = write_message(layout, &message, &mut buffer);
    let answer = (number(&written), written.unwrap_or(0));
    let proved = crate::write(layout, &message, &mut proved_buffer);
    same("number and count", proved, answer)?;
    same_buffer(&proved_buffer, &buffer)?;
    Ok(vec![Label::Number(answer.0)])
}

fn same_buffer(proved: &[u8], reference: &[u8]) -> Result<(), Difference> {
    let mut pairs = proved.iter().zip(reference);
    match pairs.position(|(proved, reference)| proved != reference) {
        Some(place) => {
            let what = format!("the buffer afterwards, at byte {place}");
            same(what, proved[place], reference[place])
        }
        None => Ok(()),
    }
}
