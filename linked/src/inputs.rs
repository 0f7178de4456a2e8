//! Inputs for the comparison. Each is made from a seed and its number alone, without the proved
//! library, but for the CRCs of the long ones (`long`).

#![forbid(unsafe_code)]

mod contents;
mod damage;
mod feeds;
pub mod long;
mod messages;
mod scripts;
mod shown;
mod stock;
mod writes;

use reference::feed::Pushes;
use reference::message::body::Layout;
use reference::random::Random;
use reference::vectors::samples::Sample;
use reference::vectors::scripts::Script;
use stock::Stock;

/// What one comparison gives to both.
pub enum Input {
    /// To the CRC.
    Bytes(Vec<u8>),
    /// To the reader, which answers for the front in a layout.
    Front(Layout, Vec<u8>),
    /// To the reader, message after message.
    Stream(Layout, Vec<u8>),
    /// To the judge of contents.
    Content {
        type_text: Vec<u8>,
        content: Vec<u8>,
    },
    /// To the writer in the sample's layout, with a buffer of so many bytes, which count up from
    /// the first one.
    Message {
        sample: Sample,
        room: usize,
        first: u8,
    },
    /// To the panel: the answers at these places, and looks at these tiles afterwards.
    Script {
        script: Script,
        places: Vec<usize>,
        tiles: Vec<usize>,
    },
    /// To a feed.
    Feed(Pushes),
}

impl Input {
    /// Without room for more bytes, so that a tool that watches memory sees a read past the end.
    fn exact(mut self) -> Self {
        match &mut self {
            Input::Bytes(bytes) | Input::Front(_, bytes) | Input::Stream(_, bytes) => {
                bytes.shrink_to_fit();
            }
            Input::Content { type_text, content } => {
                type_text.shrink_to_fit();
                content.shrink_to_fit();
            }
            Input::Message { sample, .. } => exact_sample(sample),
            Input::Script { script, .. } => script.bytes.shrink_to_fit(),
            Input::Feed(pushes) => {
                let fragments = pushes.fragments.iter_mut();
                fragments.for_each(|fragment| fragment.bytes.shrink_to_fit());
            }
        }
        self
    }
}

fn exact_sample(sample: &mut Sample) {
    let parts = [
        &mut sample.type_text,
        &mut sample.device_name,
        &mut sample.further,
        &mut sample.content,
        &mut sample.metadata,
    ];
    parts.into_iter().for_each(Vec::shrink_to_fit);
}

/// A way of making inputs, and how many it makes of each hundred.
struct Kind {
    name: &'static str,
    share: usize,
    make: fn(&mut Random, &Stock) -> Input,
}

const fn kind(name: &'static str, share: usize, make: fn(&mut Random, &Stock) -> Input) -> Kind {
    Kind { name, share, make }
}

const KINDS: [Kind; 19] = [
    kind("CRC: any bytes", 5, any_bytes),
    kind("reader: any bytes", 5, messages::any_bytes),
    kind("reader: any bytes as a body", 6, messages::any_body),
    kind("reader: messages", 8, messages::whole),
    kind("reader: messages with a fault", 11, messages::with_a_fault),
    kind("reader: messages with two faults", 8, messages::with_two),
    kind("reader: several messages", 5, messages::several),
    kind("reader: captured messages", 6, messages::captured),
    kind("contents: whole", 6, contents::whole),
    kind("contents: with faults", 8, contents::with_faults),
    kind("writer: messages", 5, writes::messages),
    kind("writer: with faults", 6, writes::with_faults),
    kind("panel: calls", 5, scripts::calls),
    kind("panel: calls damaged", 4, scripts::damaged),
    kind("panel: many calls", 1, scripts::many_calls),
    kind("panel: any bytes", 3, scripts::any_bytes),
    kind("feed: several messages", 5, feeds::several),
    kind("feed: captured messages", 2, feeds::captured),
    kind("feed: any bytes", 1, feeds::any_bytes),
];

const _: () = assert!(shares(KINDS.len()) == 100);

/// The shares of the first kinds together.
const fn shares(kinds: usize) -> usize {
    match kinds {
        0 => 0,
        _ => shares(kinds - 1) + KINDS[kinds - 1].share,
    }
}

/// All inputs of a seed.
pub struct Inputs {
    seed: u64,
    stock: Stock,
}

impl Inputs {
    pub fn new(seed: u64) -> Self {
        let stock = Stock::new();
        Inputs { seed, stock }
    }

    /// The name of the input's kind, and the input.
    pub fn input(&self, number: u64) -> (&'static str, Input) {
        let kind = kind_of(number);
        let mut random = self.random(number);
        let input = (kind.make)(&mut random, &self.stock);
        (kind.name, input.exact())
    }

    /// Words that have nothing to do with those of the numbers around it.
    fn random(&self, number: u64) -> Random {
        let of_seed = Random::new(self.seed).word();
        Random::new(Random::new(of_seed ^ number).word())
    }
}

/// The kinds take turns, so that a few inputs are of many kinds: 61 has no divisor with 100.
fn kind_of(number: u64) -> &'static Kind {
    let turn = (number % 100 * 61 % 100) as usize;
    let mut kinds = (0..KINDS.len()).filter(|&kind| turn < shares(kind + 1));
    &KINDS[kinds.next().expect("the shares sum to a hundred")]
}

fn any_layout(random: &mut Random) -> Layout {
    random.pick(&Layout::BOTH)
}

/// This layout, and now and then the other.
fn mostly(random: &mut Random, layout: Layout) -> Layout {
    let other = any_layout(random);
    random.pick(&[layout, layout, layout, other])
}

/// Mostly short ones.
fn any_bytes(random: &mut Random, _: &Stock) -> Input {
    let most = random.pick(&[10, 100, 100, 100, 100, 100, 300, 1500]);
    let length = random.below(most);
    Input::Bytes(random.bytes(length))
}

/// Bytes of a few values that the rules speak of, so that some rule is often kept.
fn few_values(random: &mut Random, length: usize) -> Vec<u8> {
    let values = [0, 0, 0, 0, 1, 1, 2, 4, 12, b'A', 127, 128, 255];
    (0..length).map(|_| random.pick(&values)).collect()
}

/// Bytes of any values, of a few values, or all the same.
fn any_or_few(random: &mut Random, length: usize) -> Vec<u8> {
    match random.below(4) {
        0..=1 => random.bytes(length),
        2 => few_values(random, length),
        _ => vec![few_values(random, 1)[0]; length],
    }
}
