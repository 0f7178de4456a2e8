//! The panel of tiles. As in the library, a call takes it by value and returns it.

use super::fields::{is_text, sized};
use super::message;
use reference::message::body::Layout;

#[derive(Clone, Copy)]
pub struct Value {
    pub bytes: [u8; 48],
    pub len: usize,
}

#[derive(Clone, Copy)]
struct Label {
    type_text: [u8; 12],
    name: [u8; 20],
}

#[derive(Clone, Copy)]
struct Tile {
    used: bool,
    label: Label,
    hold_time: u64,
    counted: bool,
    since_link: bool,
    clock: u64,
    value: Value,
}

#[derive(Clone, Copy)]
struct Link {
    up: bool,
    layout: Layout,
    clock: u64,
}

#[derive(Clone, Copy)]
pub struct Panel {
    tiles: [Tile; 16],
    link: Link,
}

pub struct AddResult {
    pub panel: Panel,
    pub answer: Result<usize, u8>,
}

pub struct CallResult {
    pub panel: Panel,
    pub number: u8,
}

struct Judged {
    number: u8,
    read: message::Answer,
}

pub enum LookAnswer {
    Empty,
    Green(u64),
    Grey(u64),
    Refused(u8),
}

pub struct LookResult {
    pub panel: Panel,
    pub answer: LookAnswer,
    pub value: Value,
}

// ---- values and labels

const NO_VALUE: Value = Value {
    bytes: [0; 48],
    len: 0,
};

fn value_of(content: &[u8]) -> Value {
    Value {
        bytes: sized(content),
        len: content.len(),
    }
}

fn label_of(type_text: &[u8], name: &[u8]) -> Label {
    Label {
        type_text: sized(type_text),
        name: sized(name),
    }
}

// ---- one tile

fn free_tile() -> Tile {
    Tile {
        used: false,
        ..new_tile(label_of(b"", b""), 0)
    }
}

fn new_tile(label: Label, hold_time: u64) -> Tile {
    Tile {
        used: true,
        label,
        hold_time,
        counted: false,
        since_link: false,
        clock: 0,
        value: NO_VALUE,
    }
}

fn is_tile(tile: Tile, label: Label) -> bool {
    tile.used && tile.label.type_text == label.type_text && tile.label.name == label.name
}

fn relink(tile: Tile) -> Tile {
    Tile {
        since_link: false,
        ..tile
    }
}

fn count_for(carries: bool, tile: Tile, clock: u64, value: Value) -> Tile {
    if !carries {
        return tile;
    }
    Tile {
        counted: true,
        since_link: true,
        clock,
        value,
        ..tile
    }
}

fn show(tile: Tile, now: u64) -> LookAnswer {
    if !tile.counted {
        return LookAnswer::Empty;
    }
    let age = now.saturating_sub(tile.clock);
    if tile.since_link && age <= tile.hold_time {
        return LookAnswer::Green(age);
    }
    LookAnswer::Grey(age)
}

// ---- the table

fn has(tiles: [Tile; 16], label: Label) -> bool {
    tiles.into_iter().any(|tile| is_tile(tile, label))
}

fn free_place(tiles: [Tile; 16]) -> usize {
    tiles.iter().position(|tile| !tile.used).unwrap_or(16)
}

// ---- calls

fn is_allowed(type_text: &[u8], name: &[u8], hold_time: u64) -> bool {
    let is_pose = type_text == b"TRANSFORM" || type_text == b"POSITION";
    let is_tile_name = (1..=20).contains(&name.len()) && is_text(name);
    is_pose && is_tile_name && (1..=60_000).contains(&hold_time)
}

fn unread(number: u8) -> Judged {
    Judged {
        number,
        read: message::read(Layout::New, b""),
    }
}

fn bytes_fault(bytes: &[u8], read: &message::Answer) -> u8 {
    if read.number != 0 {
        return read.number;
    }
    if read.step < bytes.len() {
        return 12;
    }
    0
}

fn judge(link: Link, clock: u64, bytes: &[u8]) -> Judged {
    if clock < link.clock {
        return unread(15);
    }
    if !link.up {
        return unread(14);
    }
    let read = message::read(link.layout, bytes);
    Judged {
        number: bytes_fault(bytes, &read),
        read,
    }
}

fn refused_call(panel: Panel, number: u8) -> CallResult {
    CallResult { panel, number }
}

fn refused_add(panel: Panel, number: u8) -> AddResult {
    AddResult {
        panel,
        answer: Err(number),
    }
}

fn refused_look(panel: Panel, number: u8) -> LookResult {
    LookResult {
        panel,
        answer: LookAnswer::Refused(number),
        value: NO_VALUE,
    }
}

impl Panel {
    pub fn new() -> Panel {
        Panel {
            tiles: [free_tile(); 16],
            link: Link {
                up: false,
                layout: Layout::New,
                clock: 0,
            },
        }
    }

    pub fn add(self, type_text: &[u8], name: &[u8], hold_time: u64) -> AddResult {
        if !is_allowed(type_text, name, hold_time) {
            return refused_add(self, 16);
        }
        let label = label_of(type_text, name);
        if has(self.tiles, label) {
            return refused_add(self, 17);
        }
        let place = free_place(self.tiles);
        if 16 <= place {
            return refused_add(self, 18);
        }
        let mut panel = self;
        panel.tiles[place] = new_tile(label, hold_time);
        AddResult {
            panel,
            answer: Ok(place),
        }
    }

    fn set_link(self, link: Link) -> CallResult {
        if link.clock < self.link.clock {
            return refused_call(self, 15);
        }
        CallResult {
            panel: Panel {
                tiles: self.tiles.map(relink),
                link,
            },
            number: 0,
        }
    }

    pub fn link_up(self, layout: Layout, clock: u64) -> CallResult {
        let up = true;
        self.set_link(Link { up, layout, clock })
    }

    pub fn link_down(self, clock: u64) -> CallResult {
        let (up, layout) = (false, self.link.layout);
        self.set_link(Link { up, layout, clock })
    }

    fn count_by_label(self, clock: u64, bytes: &[u8], read: message::Answer) -> CallResult {
        let label = label_of(read.type_text(bytes), read.device_name(bytes));
        let value = value_of(read.content(bytes));
        let mut counts = false;
        let changed = self.tiles.map(|tile| {
            let carries = is_tile(tile, label);
            counts |= carries;
            count_for(carries, tile, clock, value)
        });
        if !counts {
            return refused_call(self, 13);
        }
        let mut panel = self;
        panel.tiles = changed;
        panel.link.clock = clock;
        CallResult { panel, number: 0 }
    }

    pub fn message(self, clock: u64, bytes: &[u8]) -> CallResult {
        let judged = judge(self.link, clock, bytes);
        if judged.number != 0 {
            return refused_call(self, judged.number);
        }
        self.count_by_label(clock, bytes, judged.read)
    }

    pub fn look(self, tile: usize, clock: u64) -> LookResult {
        let Some(&shown) = self.tiles.get(tile).filter(|shown| shown.used) else {
            return refused_look(self, 19);
        };
        if clock < self.link.clock {
            return refused_look(self, 15);
        }
        LookResult {
            panel: self,
            answer: show(shown, clock),
            value: if shown.counted { shown.value } else { NO_VALUE },
        }
    }
}
