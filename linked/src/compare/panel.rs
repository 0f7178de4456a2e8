//! Scripts of calls on the panel.

use super::{same_as, Difference, Label};
use crate::{answer_at, look_after, Answered};
use reference::panel::{Answer, Call, History};
use reference::script::decode;
use reference::vectors::case::digits;
use reference::vectors::scripts::Script;

/// The answers at these places, and those of looks at these tiles after the script.
pub fn compare_script(
    script: &Script,
    places: &[usize],
    tiles: &[usize],
) -> Result<Vec<Label>, Difference> {
    let calls = decode(&script.bytes);
    let history = History::of(&calls);
    let answers: Vec<Answered> = history.answers().map(expected).collect();
    let at_places = places.iter().map(|&place| {
        let proved = answer_at(&script.bytes, place);
        let reference = answers.get(place).copied().unwrap_or(NO_CALL);
        let what = format_args!("the answer at place {place}");
        same_as(what, proved, reference, text).map(|()| label(&reference))
    });
    let looks = tiles.iter().map(|&tile| {
        let clock = script.clock;
        let proved = look_after(&script.bytes, tile, clock);
        let tile = tile as u64;
        let reference = expected(&history.answer(&Call::Look { tile, clock }));
        let what = format_args!("a look at tile {tile} after the script");
        same_as(what, proved, reference, text).map(|()| label(&reference))
    });
    at_places.chain(looks).collect()
}

/// What the answers are called, by the numbers that the proved library gives them.
const WORDS: [&str; 7] = [
    "accepted", "added", "empty", "green", "grey", "refused", "no call",
];
const REFUSED: u64 = 5;
const NO_CALL: Answered = Answered {
    kind: 6,
    number: 0,
    value_len: 0,
    value: [0; 48],
};

/// What the proved library gives for this answer: zeros follow a value.
fn expected(answer: &Answer) -> Answered {
    let (kind, number, value): (u64, u64, &[u8]) = match answer {
        Answer::Accepted => (0, 0, &[]),
        Answer::Added(tile) => (1, *tile as u64, &[]),
        Answer::Empty => (2, 0, &[]),
        Answer::Green { age, value } => (3, *age, value),
        Answer::Grey { age, value } => (4, *age, value),
        Answer::Refused(fault) => (REFUSED, *fault as u64, &[]),
    };
    Answered {
        kind,
        number,
        value_len: value.len() as u64,
        value: std::array::from_fn(|place| value.get(place).copied().unwrap_or(0)),
    }
}

fn label(answered: &Answered) -> Label {
    match answered.kind {
        REFUSED => Label::Number(u8::try_from(answered.number).expect("a fault's number")),
        kind => Label::Word(WORDS[kind as usize]),
    }
}

fn text(answered: &Answered) -> String {
    let Answered {
        kind,
        number,
        value_len,
        value,
    } = answered;
    let word = WORDS.get(*kind as usize).unwrap_or(&"no such answer");
    let value = digits(value);
    format!("{word} ({kind}), number {number}, value of {value_len} bytes: {value}")
}
