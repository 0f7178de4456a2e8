//! Fragments pushed to a feed.

use super::{same, same_buffer, Difference, Label};
use crate::{feed, Pushed, FIELDS};
use reference::fault::Fault;
use reference::feed::{Answer, Joined, Push, Pushes};

/// At most so many pushes of a run are compared. Each takes a run of its own.
const COMPARED: usize = 4;

/// The answers to the pushes that are compared, or to the opening where it is refused.
pub fn compare_feed(pushes: &Pushes) -> Result<Vec<Label>, Difference> {
    let stream: Vec<u8> = pushes
        .fragments
        .iter()
        .flat_map(|f| f.bytes.clone())
        .collect();
    match pushes.join() {
        Err(fault) => compare_opening(pushes, &stream, fault).map(|label| vec![label]),
        Ok(joined) => compare_pushes(pushes, &joined, &stream),
    }
}

fn compare_opening(pushes: &Pushes, stream: &[u8], fault: Fault) -> Result<Label, Difference> {
    let before = vec![pushes.fill; pushes.room];
    let mut buffer = before.clone();
    let answer = Answer::Refused(fault);
    let proved = feed(pushes.layout, &[1, 100], stream, &mut buffer);
    same("the opening", proved, (pushed(&answer, 0, 0), 0))?;
    same_buffer(&buffer, &before)?;
    Ok(label(&answer))
}

/// A run of up to three pushes is compared after each, a longer one after some of them and after the
/// last.
fn compare_pushes(
    pushes: &Pushes,
    joined: &Joined,
    stream: &[u8],
) -> Result<Vec<Label>, Difference> {
    let expected = joined.pushes();
    let lengths: Vec<u32> = expected.iter().map(|push| offered(pushes, push)).collect();
    let places = (0..expected.len()).rev();
    let places = places.step_by(expected.len() / COMPARED + 1);
    let labels = places.map(|place| {
        let push = &expected[place];
        let mut buffer = vec![pushes.fill; pushes.room];
        let proved = feed(pushes.layout, &lengths[..=place], stream, &mut buffer);
        let answered = pushed(&push.answer, push.taken, push.kept);
        same(
            format_args!("push {place}"),
            proved,
            (answered, push.in_all),
        )?;
        same_buffer(&buffer, &joined.buffer(push.in_all))?;
        Ok(label(&push.answer))
    });
    labels.collect()
}

/// How many bytes of its fragment a push is offered.
fn offered(pushes: &Pushes, push: &Push) -> u32 {
    let fragment = &pushes.fragments[push.fragment].bytes;
    u32::try_from(fragment.len() - push.from).expect("a short fragment")
}

/// What the proved library gives.
fn pushed(answer: &Answer, taken: usize, kept: usize) -> Pushed {
    let mut numbers = [0; FIELDS];
    let kind = match answer {
        Answer::Nothing => 0,
        Answer::Read(read) => {
            numbers = *read;
            1
        }
        Answer::Refused(fault) => {
            numbers[0] = *fault as u64;
            2
        }
    };
    Pushed {
        numbers,
        kind,
        taken: taken as u64,
        kept: kept as u64,
    }
}

fn label(answer: &Answer) -> Label {
    match answer {
        Answer::Nothing => Label::Word("nothing yet"),
        Answer::Read(numbers) => Label::of_message(numbers),
        Answer::Refused(fault) => Label::Number(*fault as u8),
    }
}
