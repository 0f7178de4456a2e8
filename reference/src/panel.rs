//! The panel of tiles (rules 7.1 to 7.10). Nothing is kept of it but the calls and their answers:
//! each answer is worked out from those before it.

mod tile;

use crate::fault::Fault;
use crate::message::body::Layout;
use crate::message::read;
use tile::Tile;

/// As many tiles as there can be.
const MOST_TILES: usize = 16;

/// A call on the panel; clocks and hold times in milliseconds.
#[derive(Clone, Debug, PartialEq, Eq)]
pub enum Call {
    Add {
        type_text: Vec<u8>,
        name: Vec<u8>,
        hold_time: u64,
    },
    LinkUp {
        layout: Layout,
        clock: u64,
    },
    LinkDown {
        clock: u64,
    },
    Message {
        clock: u64,
        bytes: Vec<u8>,
    },
    Look {
        tile: u64,
        clock: u64,
    },
}

#[derive(Clone, Debug, PartialEq, Eq)]
pub enum Answer {
    /// The new tile's number.
    Added(usize),
    Accepted,
    Empty,
    Green {
        age: u64,
        value: Vec<u8>,
    },
    Grey {
        age: u64,
        value: Vec<u8>,
    },
    Refused(Fault),
}

/// A call and its answer.
struct Event<'a> {
    call: &'a Call,
    answer: Answer,
}

/// The calls on a panel that was fresh before the first, and their answers.
pub struct History<'a> {
    events: Vec<Event<'a>>,
}

/// A message that counted (rule 7.5): its place in the history, its clock and its content.
struct Counted<'a> {
    place: usize,
    clock: u64,
    value: &'a [u8],
}

impl<'a> History<'a> {
    pub fn of(calls: &'a [Call]) -> Self {
        let mut history = History { events: Vec::new() };
        for call in calls {
            let answer = history.answer(call);
            history.events.push(Event { call, answer });
        }
        history
    }

    pub fn answers(&self) -> impl Iterator<Item = &Answer> {
        self.events.iter().map(|event| &event.answer)
    }

    /// The answer to one more call.
    pub fn answer(&self, call: &Call) -> Answer {
        let answer = match call {
            Call::Add { .. } => self.add(call),
            Call::LinkUp { clock, .. } | Call::LinkDown { clock } => self.link(*clock),
            Call::Message { clock, bytes } => self.message(*clock, bytes),
            Call::Look { tile, clock } => self.look(*tile, *clock),
        };
        answer.unwrap_or_else(Answer::Refused)
    }

    fn add(&self, call: &Call) -> Result<Answer, Fault> {
        let tile = Tile::of(call).filter(Tile::is_allowed);
        let tile = tile.ok_or(Fault::Tile)?;
        let count = self.tiles().count();
        if self.tiles().any(|(_, other)| other.is_like(&tile)) {
            Err(Fault::Twice)
        } else if count == MOST_TILES {
            Err(Fault::Full)
        } else {
            Ok(Answer::Added(count))
        }
    }

    fn link(&self, clock: u64) -> Result<Answer, Fault> {
        self.not_earlier(clock).map(|()| Answer::Accepted)
    }

    fn message(&self, clock: u64, bytes: &[u8]) -> Result<Answer, Fault> {
        self.not_earlier(clock)?;
        let layout = self.layout_at(self.events.len()).ok_or(Fault::LinkDown)?;
        let reading = read(layout, bytes);
        let message = reading.message?;
        if reading.step < bytes.len() {
            Err(Fault::LeftOver)
        } else if !self.tiles().any(|(_, tile)| tile.is_of(&message)) {
            Err(Fault::NoTile)
        } else {
            Ok(Answer::Accepted)
        }
    }

    fn look(&self, number: u64, clock: u64) -> Result<Answer, Fault> {
        let number = usize::try_from(number).map_err(|_| Fault::NotFound)?;
        let (added, tile) = self.tiles().nth(number).ok_or(Fault::NotFound)?;
        self.not_earlier(clock)?;
        let Some(counted) = self.last_counted(added, &tile) else {
            return Ok(Answer::Empty);
        };
        let age = clock - counted.clock;
        let value = counted.value.to_vec();
        let same_link = !self.events[counted.place..].iter().any(Event::is_link);
        if same_link && age <= tile.hold_time {
            Ok(Answer::Green { age, value })
        } else {
            Ok(Answer::Grey { age, value })
        }
    }

    /// The tiles by their numbers, each with the place of its adding.
    fn tiles(&self) -> impl Iterator<Item = (usize, Tile<'a>)> + '_ {
        let added = |event: &Event| matches!(event.answer, Answer::Added(_));
        let events = self.events.iter().enumerate();
        let events = events.filter(move |(_, event)| added(event));
        events.filter_map(|(place, event)| Some((place, Tile::of(event.call)?)))
    }

    /// The layout that the last accepted link call before a place names, or nothing where the link
    /// is down: the call is no link up, or there is none.
    fn layout_at(&self, place: usize) -> Option<Layout> {
        let before = self.events[..place].iter();
        let last = before.rev().find(|event| event.is_link())?;
        match last.call {
            Call::LinkUp { layout, .. } => Some(*layout),
            _ => None,
        }
    }

    /// The clock of the last link or message call accepted, and 0 before the first.
    fn clock(&self) -> u64 {
        let last = self.events.iter().rev().find_map(Event::clock);
        last.unwrap_or(0)
    }

    fn not_earlier(&self, clock: u64) -> Result<(), Fault> {
        if clock < self.clock() {
            Err(Fault::Earlier)
        } else {
            Ok(())
        }
    }

    /// The last message of the tile's name and type that counted after the place of its adding.
    fn last_counted(&self, added: usize, tile: &Tile) -> Option<Counted<'a>> {
        let events = self.events.iter().enumerate().skip(added + 1);
        let of_event = |(place, event): (usize, &Event<'a>)| {
            let clock = event.clock()?;
            let Call::Message { bytes, .. } = event.call else {
                return None;
            };
            let message = read(self.layout_at(place)?, bytes).message.ok()?;
            let value = message.body.content;
            tile.is_of(&message).then_some(Counted {
                place,
                clock,
                value,
            })
        };
        events.rev().find_map(of_event)
    }
}

impl Event<'_> {
    /// An accepted call that sets the link.
    fn is_link(&self) -> bool {
        let sets_link = matches!(self.call, Call::LinkUp { .. } | Call::LinkDown { .. });
        sets_link && self.answer == Answer::Accepted
    }

    /// The clock of an accepted link or message call.
    fn clock(&self) -> Option<u64> {
        match self.call {
            Call::LinkUp { clock, .. } | Call::LinkDown { clock } | Call::Message { clock, .. } => {
                (self.answer == Answer::Accepted).then_some(*clock)
            }
            Call::Add { .. } | Call::Look { .. } => None,
        }
    }
}

#[cfg(test)]
mod tests {
    use super::{Answer, Call, History, Layout};
    use crate::fault::Fault;
    use crate::message::body::Body;
    use crate::message::Message;

    fn add(type_text: &[u8], name: &[u8]) -> Call {
        Call::Add {
            type_text: type_text.to_vec(),
            name: name.to_vec(),
            hold_time: 500,
        }
    }

    fn up(layout: Layout, clock: u64) -> Call {
        Call::LinkUp { layout, clock }
    }

    fn transform<'a>(device_name: &'a [u8], content: &'a [u8]) -> Message<'a> {
        Message {
            version: 1,
            type_text: b"TRANSFORM",
            device_name,
            body: Body {
                content,
                ..Body::default()
            },
            ..Message::default()
        }
    }

    fn message(clock: u64, device_name: &[u8], value: u8) -> Call {
        let content = [value; 48];
        let bytes = transform(device_name, &content).encode(Layout::New);
        let bytes = bytes.unwrap();
        Call::Message { clock, bytes }
    }

    /// One of V 2 for the Arm, with this MSG_ID.
    fn extended(layout: Layout, clock: u64, id: u32, value: u8) -> Call {
        let content = [value; 48];
        let mut message = transform(b"Arm", &content);
        (message.version, message.body.id) = (2, id);
        let bytes = message.encode(layout).unwrap();
        Call::Message { clock, bytes }
    }

    fn look(clock: u64) -> Call {
        Call::Look { tile: 0, clock }
    }

    /// What is answered of these calls after the first three of P10.
    fn after_p10(calls: &[Call]) -> Vec<Answer> {
        let tile = add(b"TRANSFORM", b"Arm");
        let first = [tile, up(Layout::New, 1000), message(1200, b"Arm", 7)];
        let calls = [&first, calls].concat();
        let history = History::of(&calls);
        let answers: Vec<_> = history.answers().cloned().collect();
        let accepted = Answer::Accepted;
        assert_eq!(answers[..3], [Answer::Added(0), accepted.clone(), accepted]);
        answers[3..].to_vec()
    }

    fn green(age: u64, value: u8) -> Answer {
        let value = vec![value; 48];
        Answer::Green { age, value }
    }

    fn grey(age: u64, value: u8) -> Answer {
        let value = vec![value; 48];
        Answer::Grey { age, value }
    }

    #[test]
    fn p10_to_p12() {
        let link = up(Layout::New, 1400);
        let calls = [look(1700), look(1701), look(1199), link, look(1400)];
        let expected = [
            green(500, 7),
            grey(501, 7),
            Answer::Refused(Fault::Earlier),
            Answer::Accepted,
            grey(200, 7),
        ];
        assert_eq!(after_p10(&calls), expected);
    }

    #[test]
    fn a_refused_call_changes_nothing() {
        let nobody = message(1300, b"Nobody", 8);
        let link = Call::LinkDown { clock: 1199 };
        let expected = [
            Answer::Refused(Fault::NoTile),
            Answer::Refused(Fault::Earlier),
            green(0, 7),
        ];
        assert_eq!(after_p10(&[nobody, link, look(1200)]), expected);
    }

    #[test]
    fn the_last_message_shows() {
        let calls = [message(1200, b"Arm", 8), message(1300, b"Arm", 9)];
        let looked = after_p10(&[&calls[..], &[look(1301)]].concat());
        assert_eq!(looked[2], green(1, 9));
    }

    #[test]
    fn a_new_message_is_green_on_a_new_link() {
        let links = [
            Call::LinkDown { clock: 1200 },
            message(1200, b"Arm", 8),
            up(Layout::New, 1200),
            message(1200, b"Arm", 9),
        ];
        let expected = [
            Answer::Accepted,
            Answer::Refused(Fault::LinkDown),
            Answer::Accepted,
            Answer::Accepted,
            green(0, 9),
        ];
        assert_eq!(after_p10(&[&links[..], &[look(1200)]].concat()), expected);
    }

    /// What is answered of these calls with a tile for the Arm.
    fn with_tile(calls: &[Call]) -> Vec<Answer> {
        let calls = [&[add(b"TRANSFORM", b"Arm")], calls].concat();
        let answers: Vec<_> = History::of(&calls).answers().cloned().collect();
        answers[1..].to_vec()
    }

    const ACCEPTED: Answer = Answer::Accepted;

    /// In the new layout 5 is the size of keys and values, which the content is long enough for.
    #[test]
    fn a_refused_link_up_names_no_layout() {
        let [new, old] = Layout::BOTH;
        let calls = [
            up(old, 10),
            extended(new, 11, 5, 8),
            up(new, 9),
            extended(new, 11, 5, 8),
            extended(old, 11, 5, 7),
            up(new, 12),
            extended(new, 13, 5, 8),
            look(13),
            up(old, 12),
            extended(new, 13, 5, 9),
            extended(old, 13, 5, 7),
            look(13),
        ];
        let faults = [Fault::Extended, Fault::Metadata, Fault::Earlier];
        let [extended, metadata, earlier] = faults.map(Answer::Refused);
        let before = [
            ACCEPTED,
            extended.clone(),
            earlier.clone(),
            extended.clone(),
        ];
        let switched = [ACCEPTED, ACCEPTED, ACCEPTED, green(0, 8)];
        let after = [earlier, ACCEPTED, metadata, green(0, 9)];
        assert_eq!(with_tile(&calls), [before, switched, after].concat());
    }

    #[test]
    fn without_id_and_metadata_a_message_counts_in_both_layouts() {
        for layout in Layout::BOTH {
            for written in Layout::BOTH {
                let calls = [up(layout, 5), extended(written, 6, 0, 7), look(6)];
                assert_eq!(with_tile(&calls), [ACCEPTED, ACCEPTED, green(0, 7)]);
            }
        }
    }

    /// Each value is what its message says in the layout of its own link.
    #[test]
    fn a_value_stays_after_a_change_of_layout() {
        for (first, second) in [(Layout::New, Layout::Old), (Layout::Old, Layout::New)] {
            let calls = [
                up(first, 5),
                extended(first, 6, 9, 7),
                up(second, 7),
                look(8),
                Call::LinkDown { clock: 8 },
                look(8),
                up(first, 8),
                look(9),
            ];
            let answers = with_tile(&calls);
            let looks = [3, 5, 7].map(|place: usize| answers[place].clone());
            assert_eq!(looks, [grey(2, 7), grey(2, 7), grey(3, 7)]);
        }
    }

    #[test]
    fn a_fresh_panel_has_no_tiles_and_no_link() {
        let calls = [look(0), message(0, b"Arm", 7), Call::LinkDown { clock: 0 }];
        let history = History::of(&calls);
        let expected = [
            Answer::Refused(Fault::NotFound),
            Answer::Refused(Fault::LinkDown),
            Answer::Accepted,
        ];
        assert!(history.answers().eq(&expected));
    }

    #[test]
    fn tiles_are_numbered_in_the_order_of_adding() {
        let calls = [
            add(b"TRANSFORM", b"Arm"),
            add(b"TRANSFORM", b"Arm"),
            add(b"IMAGE", b"Arm"),
            add(b"POSITION", b"Arm"),
        ];
        let history = History::of(&calls);
        let expected = [
            Answer::Added(0),
            Answer::Refused(Fault::Twice),
            Answer::Refused(Fault::Tile),
            Answer::Added(1),
        ];
        assert!(history.answers().eq(&expected));
    }

    #[test]
    fn sixteen_tiles_are_the_most() {
        let calls: Vec<_> = (1..=17).map(|name| add(b"POSITION", &[name])).collect();
        let history = History::of(&calls);
        let answers: Vec<_> = history.answers().collect();
        assert_eq!(
            answers[15..],
            [&Answer::Added(15), &Answer::Refused(Fault::Full)]
        );
        let again = add(b"POSITION", &[16]);
        assert_eq!(history.answer(&again), Answer::Refused(Fault::Twice));
    }
}
