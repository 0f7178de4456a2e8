//! Scripts for the program `panel_scripts`: calls on a fresh panel, then a look at every tile.

pub mod calls;
pub mod chances;
mod colours;
pub mod encodings;
mod layouts;
mod links;
mod refusals;
mod rests;
mod sizes;
mod tiles;

use super::case::digits;
use crate::panel::{Answer, Call, History};
use crate::script::{decode, encode};

/// A script, and the clock of the looks after it.
#[derive(Clone)]
pub struct Script {
    pub bytes: Vec<u8>,
    pub clock: u64,
}

pub fn scripts() -> Vec<Script> {
    [named(), chances::scripts()].concat()
}

/// Every script that is not made by chance.
fn named() -> Vec<Script> {
    [
        colours::scripts(),
        links::scripts(),
        sizes::scripts(),
        refusals::scripts(),
        tiles::scripts(),
        encodings::scripts(),
        layouts::scripts(),
        rests::scripts(),
    ]
    .concat()
}

impl Script {
    fn of(calls: &[Call], clock: u64) -> Self {
        let bytes = encode(calls);
        Script { bytes, clock }
    }

    /// The answers to its calls, and to the looks after it, tile by tile.
    fn answers(&self) -> [Vec<Answer>; 2] {
        let calls = decode(&self.bytes);
        let history = History::of(&calls);
        let answers: Vec<Answer> = history.answers().cloned().collect();
        let added = answers.iter().filter(|answer| is_added(answer));
        let looks = (0..).take(added.count()).map(|tile| {
            let clock = self.clock;
            history.answer(&Call::Look { tile, clock })
        });
        let looks = looks.collect();
        [answers, looks]
    }

    /// The script's length, the clock, and the script.
    fn record(&self) -> Vec<u8> {
        let length = u32::try_from(self.bytes.len()).expect("a length fits four bytes");
        let clock = self.clock.to_be_bytes();
        [&length.to_be_bytes()[..], &clock, &self.bytes].concat()
    }

    /// The lines of the script of this number.
    fn lines(&self, number: usize) -> String {
        let [answers, looks] = self.answers();
        let answers = answers.iter().enumerate();
        let answers = answers.map(|(place, answer)| format!("{place} {}\n", text(answer)));
        let looks = looks.iter().enumerate();
        let looks = looks.map(|(tile, answer)| format!("tile {tile} {}\n", text(answer)));
        let title = format!("script {number}\n");
        title + &answers.chain(looks).collect::<String>()
    }
}

fn is_added(answer: &Answer) -> bool {
    matches!(answer, Answer::Added(_))
}

fn text(answer: &Answer) -> String {
    match answer {
        Answer::Added(tile) => format!("added {tile}"),
        Answer::Accepted => "accepted".to_string(),
        Answer::Empty => "empty".to_string(),
        Answer::Green { age, value } => format!("green {age} {}", digits(value)),
        Answer::Grey { age, value } => format!("grey {age} {}", digits(value)),
        Answer::Refused(fault) => format!("refused {}", *fault as u8),
    }
}

/// The input: the records, and then one that lacks its last byte.
pub fn input(scripts: &[Script]) -> Vec<u8> {
    let cut_short = Script::of(&calls::start(), 1700);
    let scripts = scripts.iter().chain([&cut_short]);
    let mut bytes: Vec<u8> = scripts.flat_map(Script::record).collect();
    bytes.pop();
    bytes
}

pub fn output(scripts: &[Script]) -> Vec<u8> {
    let scripts = scripts.iter().enumerate();
    let lines = scripts.map(|(number, script)| script.lines(number));
    lines.collect::<String>().into_bytes()
}

#[cfg(test)]
mod tests {
    use super::{calls, input, named, output, Answer, Script};

    impl Script {
        /// The answers in a line: those to the calls, then those to the looks after them. Of each
        /// value only the first byte.
        pub fn brief(&self) -> String {
            let lines = self.answers().map(|answers| {
                let words = answers.iter().map(brief);
                words.collect::<Vec<_>>().join(", ")
            });
            lines.join(" | ")
        }
    }

    fn brief(answer: &Answer) -> String {
        match answer {
            Answer::Green { age, value } => format!("green {age} {}", value[0]),
            Answer::Grey { age, value } => format!("grey {age} {}", value[0]),
            other => super::text(other),
        }
    }

    #[test]
    fn a_record_and_its_lines() {
        let look = calls::look(0, 5);
        let scripts = [Script::of(&[look], 0x0102), Script::of(&[], 3)];
        let record = input(&scripts);
        assert_eq!(record[..13], [0, 0, 0, 25, 0, 0, 0, 0, 0, 0, 1, 2, 4]);
        assert_eq!(record[37..49], [0, 0, 0, 0, 0, 0, 0, 0, 0, 0, 0, 3]);
        assert_eq!(output(&scripts), b"script 0\n0 refused 19\nscript 1\n");
    }

    #[test]
    fn the_tiles_are_looked_at_after_the_script() {
        let script = Script::of(&calls::start(), 1701);
        let pose = "07".repeat(48);
        let first = "script 9\n0 added 0\n1 accepted\n2 accepted\n";
        let expected = format!("{first}tile 0 grey 501 {pose}\n");
        assert_eq!(script.lines(9), expected);
    }

    #[test]
    fn the_last_record_lacks_a_byte() {
        let script = Script::of(&calls::start(), 1700);
        let record = script.record();
        assert_eq!(input(&[]), record[..record.len() - 1]);
    }

    /// 20 and 21 are no numbers of the panel's.
    #[test]
    fn the_named_scripts_give_every_number() {
        let scripts = named();
        let answers = scripts.iter().flat_map(Script::answers).flatten();
        let refused = answers.filter_map(|answer| match answer {
            Answer::Refused(fault) => Some(fault as u8),
            _ => None,
        });
        let refused: std::collections::BTreeSet<u8> = refused.collect();
        assert!(refused.into_iter().eq(1..=19));
    }
}
