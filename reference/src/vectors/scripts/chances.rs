//! Scripts by chance: mostly good calls, at clocks that rise in steps about as long as the hold
//! times, with link ups of both layouts.

use super::calls::{add, down, look, message, send, up_in, ARM, NEEDLE, POSITION, TRANSFORM};
use super::{refusals, Script};
use crate::message::body::Layout;
use crate::panel::Call;
use crate::random::Random;
use crate::script::Fields;
use crate::vectors::rests::{self, DEVICE_NAME, TYPE};
use crate::vectors::samples::{mended, Sample};
use crate::vectors::{bundles, images, metadata, streams, trees};

const SEED: u64 = 11;
const CHANCES: usize = 640;

/// As many have messages whose texts are not followed by zeros alone.
const MARKED: usize = 48;

/// One more than sixteen tiles of two types need.
const NAMES: [&[u8]; 9] = [
    ARM,
    NEEDLE,
    b"A",
    b"arm",
    b"Arm2",
    b"\x01\x7F",
    b"A name of 20 bytes!!",
    b"Tip",
    b"Seventeenth",
];

pub fn scripts() -> Vec<Script> {
    let mut random = Random::new(SEED);
    let others = other_messages();
    let scripts = (0..CHANCES).map(|_| by_chance(&mut random, &others));
    let mut scripts: Vec<Script> = scripts.collect();
    let marked = marked_messages(&mut random);
    scripts.extend((0..MARKED).map(|_| by_chance(&mut random, &marked)));
    scripts
}

/// One script, with these among the messages that no tile shows.
pub fn by_chance(random: &mut Random, others: &[Vec<u8>]) -> Script {
    Chooser::new(random, others).script()
}

/// Messages that no tile shows: one for each number of the reader in each layout, and sound ones of
/// other types.
pub fn other_messages() -> Vec<Vec<u8>> {
    let sound = [
        Sample::plain(b"IMAGE", &images::p9().bytes()),
        Sample::plain(b"BIND", &bundles::mixed()),
        Sample::plain(b"STATUS", b"ok"),
    ];
    let sound = sound.iter().map(Sample::bytes);
    let refused = Layout::BOTH.map(refusals::refused_messages).concat();
    refused.into_iter().chain(sound).collect()
}

/// Messages for tiles of most scripts, with something after their texts, and one for 2 in each
/// layout.
pub fn marked_messages(random: &mut Random) -> Vec<Vec<u8>> {
    let names = &NAMES[..3];
    let types = [(TRANSFORM, 48), (POSITION, 12)];
    let texts = names
        .iter()
        .flat_map(|name| types.map(|(of, length)| (of, name, length)));
    let marked = texts.map(|(type_text, name, length)| {
        let bytes = message(type_text, name, &vec![9; length]).bytes();
        rests::by_chance(random, &bytes, &[TYPE, DEVICE_NAME])
    });
    let refused = Layout::BOTH.map(streams::without_text);
    marked.chain(refused).collect()
}

/// Chooses the calls of one script. What it remembers makes good calls likely, and has no part in
/// their answers.
struct Chooser<'a> {
    random: &'a mut Random,
    others: &'a [Vec<u8>],
    /// The last clock given with a link call or a message.
    clock: u64,
    /// Whether the last link call was a link up, and the layout of the last link up.
    linked: bool,
    layout: Layout,
    /// The hold time of most tiles.
    hold_time: u64,
    /// The types and names of the tiles, and the place of the one that the last message was for.
    tiles: Vec<[&'static [u8]; 2]>,
    sent: usize,
}

impl<'a> Chooser<'a> {
    fn new(random: &'a mut Random, others: &'a [Vec<u8>]) -> Self {
        let hold_time = random.pick(&[1, 2, 5, 10, 10, 500, 60_000]);
        let clock = random.pick(&[0, 0, 5, 1000, 1 << 32, u64::MAX - 4 * hold_time]);
        Chooser {
            random,
            others,
            clock,
            linked: false,
            layout: Layout::New,
            hold_time,
            tiles: Vec::new(),
            sent: 0,
        }
    }

    /// Now and then cut off, or with one bit changed.
    fn script(mut self) -> Script {
        let calls = self.calls();
        let calls = calls.iter().map(|call| self.encoded(call));
        let bytes = calls.collect::<Vec<_>>().concat();
        let clock = self.next_clock();
        let bytes = match self.random.below(24) {
            0 => bytes[..self.random.below(bytes.len())].to_vec(),
            1 => trees::damaged(self.random, &bytes),
            _ => bytes,
        };
        Script { bytes, clock }
    }

    fn calls(&mut self) -> Vec<Call> {
        let mut calls = self.first_calls();
        let count = self.random.pick(&[8, 10, 12, 12, 16, 20, 32]);
        calls.extend((0..count).map(|_| self.call()));
        calls
    }

    /// Some tiles, now and then sixteen or two too many, and mostly a link up.
    fn first_calls(&mut self) -> Vec<Call> {
        let mut calls: Vec<Call> = if self.random.below(20) == 0 {
            let types = [TRANSFORM, POSITION];
            let names = NAMES[..self.random.pick(&[8, 9])].iter();
            let texts = names.flat_map(|&name| types.map(|type_text| [type_text, name]));
            texts.map(|texts| self.add_of(texts)).collect()
        } else {
            let count = self.random.pick(&[0, 1, 1, 1, 1, 2, 2, 2, 3, 3]);
            (0..count).map(|_| self.add()).collect()
        };
        if self.random.below(8) > 0 {
            calls.push(self.up());
        }
        calls
    }

    fn call(&mut self) -> Call {
        match self.random.below(24) {
            0..=1 => self.add(),
            2..=5 => self.link(),
            6..=9 if !self.linked => self.link(),
            6..=13 => {
                let bytes = self.message();
                send(self.step(), &bytes)
            }
            _ => self.look(),
        }
    }

    /// As often up as down where the link is up, else mostly up.
    fn link(&mut self) -> Call {
        let choices: &[bool] = if self.linked {
            &[true, false]
        } else {
            &[true, true, false]
        };
        if self.random.pick(choices) {
            return self.up();
        }
        self.linked = false;
        down(self.step())
    }

    fn up(&mut self) -> Call {
        self.linked = true;
        self.layout = self.random.pick(&Layout::BOTH);
        up_in(self.layout, self.step())
    }

    /// Mostly one of the first names, so that some come twice.
    fn add(&mut self) -> Call {
        let count = self.random.pick(&[2, 3, NAMES.len()]);
        let type_text = self.random.pick(&[TRANSFORM, TRANSFORM, POSITION]);
        let name = self.random.pick(&NAMES[..count]);
        match self.random.below(24) {
            0 => add(self.random.pick(&[b"", b"IMAGE", b"TRANSFORM\0"]), name, 1),
            1 => add(
                type_text,
                self.random.pick(&[b"", b"Arm\0", &[b'A'; 21]]),
                1,
            ),
            2 => add(type_text, name, self.random.pick(&[0, 60_001, u64::MAX])),
            _ => self.add_of([type_text, name]),
        }
    }

    fn add_of(&mut self, texts: [&'static [u8]; 2]) -> Call {
        if !self.tiles.contains(&texts) {
            self.tiles.push(texts);
        }
        let most = self.hold_time;
        let hold_time = self.random.pick(&[most, most, most, 1, 60_000]);
        let [type_text, name] = texts;
        add(type_text, name, hold_time)
    }

    /// Mostly at the tile that the last message was for, up to the hold time later and one more.
    fn look(&mut self) -> Call {
        let count = self.tiles.len();
        let tile = match self.random.below(32) {
            0 => self.random.pick(&[15, 16, 17, 1 << 63, u64::MAX]),
            1 => count as u64,
            2..=11 if count > 0 => self.random.below(count) as u64,
            _ => self.sent as u64,
        };
        let hold = self.hold_time;
        let later = self.random.pick(&[0, 1, hold - 1, hold, hold, hold + 1]);
        let clock = match self.random.below(4) {
            0 => self.next_clock(),
            _ => self.clock.saturating_add(later),
        };
        look(tile, clock)
    }

    /// The clock of a link call or a message.
    fn step(&mut self) -> u64 {
        let clock = self.next_clock();
        self.clock = self.clock.max(clock);
        clock
    }

    /// The last clock or a later one, by up to the hold time and one more; seldom an earlier one.
    fn next_clock(&mut self) -> u64 {
        let hold = self.hold_time;
        if self.random.below(16) == 0 {
            let back = self.random.pick(&[1, 1, hold, u64::MAX]);
            return self.clock.saturating_sub(back);
        }
        let steps = [0, 0, 0, 1, 1, hold / 2, hold, hold + 1];
        self.clock.saturating_add(self.random.pick(&steps))
    }

    /// Mostly sound and for a tile.
    fn message(&mut self) -> Vec<u8> {
        let sample = self.sound();
        let bytes = sample.bytes();
        match self.random.below(32) {
            0 => trees::damaged(self.random, &bytes),
            1 => mended(trees::damaged(self.random, &bytes)),
            2 => bytes[..self.random.below(bytes.len())].to_vec(),
            3 => [&bytes[..], &[0]].concat(),
            4 => sample.with(|sample| sample.content.push(0)).bytes(),
            5..=7 => self.others[self.random.below(self.others.len())].clone(),
            _ => bytes,
        }
    }

    fn sound(&mut self) -> Sample {
        let [type_text, name] = self.texts();
        let length = match type_text {
            TRANSFORM => 48,
            _ => self.random.pick(&[12, 24, 28]),
        };
        let plain = message(type_text, name, &self.random.bytes(length));
        if self.random.below(3) > 0 {
            return plain;
        }
        let further = self.random.pick(&[0, 1, 4]);
        let [new, old] = Layout::BOTH;
        Sample {
            layout: self.random.pick(&[self.layout, self.layout, new, old]),
            version: 2,
            time_stamp: self.random.word(),
            id: self.random.u32(),
            further: self.random.bytes(further),
            metadata: metadata::by_chance(self.random),
            ..plain
        }
    }

    /// Mostly those of a tile.
    fn texts(&mut self) -> [&'static [u8]; 2] {
        if self.tiles.is_empty() || self.random.below(16) == 0 {
            let type_text = self.random.pick(&[TRANSFORM, POSITION]);
            return [type_text, self.random.pick(&NAMES)];
        }
        if self.random.below(2) == 0 {
            self.sent = self.random.below(self.tiles.len());
        }
        self.tiles[self.sent]
    }

    /// Now and then with something in the fields that the call ignores.
    fn encoded(&mut self, call: &Call) -> Vec<u8> {
        let mut fields = Fields::of(call);
        if self.random.below(8) == 0 {
            self.fill(&mut fields);
        }
        fields.encode()
    }

    fn fill(&mut self, fields: &mut Fields) {
        let [length, kind] = [5, 252].map(|bound| self.random.below(bound));
        let bytes = self.random.bytes(length);
        let word = self.random.word();
        match fields.kind {
            0 => fields.clock = word,
            // Any number but 1 names the new layout.
            1 if fields.number != 1 => (fields.number, fields.first) = (word.max(2), bytes),
            1 => fields.first = bytes,
            2 => (fields.number, fields.first) = (word, bytes),
            3 => (fields.number, fields.second) = (word, bytes),
            _ => {
                fields.kind = 4 + u8::try_from(kind).expect("a kind fits a byte");
                fields.second = bytes;
            }
        }
    }
}

#[cfg(test)]
mod tests {
    use super::{scripts, Script};
    use crate::panel::{Answer, Call};
    use crate::script::decode;
    use std::collections::BTreeMap;

    /// A call with its answer, the looks after the script among them.
    fn events(script: &Script) -> Vec<(Call, Answer)> {
        let [answers, looks] = script.answers();
        let calls = decode(&script.bytes);
        let clock = script.clock;
        let last = (0..).map(|tile| Call::Look { tile, clock });
        let events = calls.into_iter().zip(answers);
        events.chain(last.zip(looks)).collect()
    }

    fn counts<T: Ord>(items: impl IntoIterator<Item = T>) -> BTreeMap<T, usize> {
        let mut counts = BTreeMap::new();
        for item in items {
            *counts.entry(item).or_default() += 1;
        }
        counts
    }

    /// All but 20 and 21, which are not the panel's.
    #[test]
    fn every_number_of_a_refusal() {
        let events = scripts().iter().flat_map(events).collect::<Vec<_>>();
        let numbers = events.iter().filter_map(|(_, answer)| match answer {
            Answer::Refused(fault) => Some(*fault as u8),
            _ => None,
        });
        let counts = counts(numbers);
        assert!(counts.keys().copied().eq(1..=19), "{counts:?}");
        assert!(counts.values().all(|&count| count >= 5), "{counts:?}");
    }

    /// A look's colour; grey apart by whether the hold time has passed.
    fn colour(hold_times: &[u64], (call, answer): &(Call, Answer)) -> Option<&'static str> {
        let Call::Look { tile, .. } = call else {
            return None;
        };
        let hold_time = |tile: u64| hold_times[usize::try_from(tile).unwrap()];
        match answer {
            Answer::Empty => Some("empty"),
            Answer::Green { age, .. } if *age == hold_time(*tile) => Some("green at the last"),
            Answer::Green { .. } => Some("green"),
            Answer::Grey { age, .. } if *age > hold_time(*tile) => Some("grey by age"),
            Answer::Grey { .. } => Some("grey by the link"),
            _ => None,
        }
    }

    fn colours(script: &Script) -> Vec<&'static str> {
        let events = events(script);
        let hold_times = events.iter().filter_map(|event| match event {
            (Call::Add { hold_time, .. }, Answer::Added(_)) => Some(*hold_time),
            _ => None,
        });
        let hold_times: Vec<u64> = hold_times.collect();
        let colours = events.iter().filter_map(|event| colour(&hold_times, event));
        colours.collect()
    }

    #[test]
    fn every_colour_often() {
        let counts = counts(scripts().iter().flat_map(colours));
        assert_eq!(counts.len(), 5, "{counts:?}");
        assert!(counts.values().all(|&count| count >= 200), "{counts:?}");
    }

    /// The accepted link calls, two by two.
    fn reconnects(script: &Script) -> Vec<[bool; 2]> {
        let events = events(script);
        let links = events.iter().filter_map(|event| match event {
            (Call::LinkUp { .. }, Answer::Accepted) => Some(true),
            (Call::LinkDown { .. }, Answer::Accepted) => Some(false),
            _ => None,
        });
        let links: Vec<bool> = links.collect();
        links.windows(2).map(|pair| [pair[0], pair[1]]).collect()
    }

    #[test]
    fn every_reconnect_often() {
        let counts = counts(scripts().iter().flat_map(reconnects));
        assert_eq!(counts.len(), 4, "{counts:?}");
        assert!(counts.values().all(|&count| count >= 100), "{counts:?}");
    }
}
