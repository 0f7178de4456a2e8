//! Scripts of calls on a panel, run call by call from a fresh one.

use super::fields::{be32, be64, be8, part, rest};
use super::panel::{AddResult, CallResult, LookAnswer, LookResult, Panel, Value};
use reference::message::body::Layout;

pub enum CallAnswer {
    Accepted,
    Added(usize),
    Empty,
    Green(u64),
    Grey(u64),
    Refused(u8),
}

pub struct Answered {
    pub answer: CallAnswer,
    pub value: Value,
}

struct Performed {
    panel: Panel,
    answered: Answered,
}

// ---- the calls of a script

fn call_len(script: &[u8]) -> usize {
    25 + be32(script, 17) as usize + be32(script, 21) as usize
}

fn first_part(script: &[u8]) -> &[u8] {
    part(script, 25, be32(script, 17) as usize)
}

fn second_part(script: &[u8]) -> &[u8] {
    let at = 25 + be32(script, 17) as usize;
    part(script, at, be32(script, 21) as usize)
}

fn layout_of(number: u64) -> Layout {
    match number {
        1 => Layout::Old,
        _ => Layout::New,
    }
}

// ---- what the panel's calls give

fn without_value(answer: CallAnswer) -> Answered {
    let value = Value {
        bytes: [0; 48],
        len: 0,
    };
    Answered { answer, value }
}

fn after_add(result: AddResult) -> Performed {
    let answer = match result.answer {
        Ok(tile) => CallAnswer::Added(tile),
        Err(number) => CallAnswer::Refused(number),
    };
    Performed {
        panel: result.panel,
        answered: without_value(answer),
    }
}

fn after_call(result: CallResult) -> Performed {
    let answer = match result.number {
        0 => CallAnswer::Accepted,
        number => CallAnswer::Refused(number),
    };
    Performed {
        panel: result.panel,
        answered: without_value(answer),
    }
}

fn after_look(result: LookResult) -> Performed {
    let answer = match result.answer {
        LookAnswer::Empty => CallAnswer::Empty,
        LookAnswer::Green(age) => CallAnswer::Green(age),
        LookAnswer::Grey(age) => CallAnswer::Grey(age),
        LookAnswer::Refused(number) => CallAnswer::Refused(number),
    };
    Performed {
        panel: result.panel,
        answered: Answered {
            answer,
            value: result.value,
        },
    }
}

// ---- running a script

// Two functions of the archive call it, so that it is not inlined there; nor is it here.
#[inline(never)]
fn perform(panel: Panel, script: &[u8]) -> Performed {
    let clock = be64(script, 1);
    let number = be64(script, 9);
    match be8(script, 0) {
        0 => after_add(panel.add(first_part(script), second_part(script), number)),
        1 => after_call(panel.link_up(layout_of(number), clock)),
        2 => after_call(panel.link_down(clock)),
        3 => after_call(panel.message(clock, first_part(script))),
        _ => after_look(panel.look(number as usize, clock)),
    }
}

fn run(script: &[u8]) -> Panel {
    let mut panel = Panel::new();
    let mut left = script;
    while !left.is_empty() {
        panel = perform(panel, left).panel;
        left = rest(left, call_len(left));
    }
    panel
}

pub fn look_after(script: &[u8], tile: usize, clock: u64) -> Answered {
    after_look(run(script).look(tile, clock)).answered
}
