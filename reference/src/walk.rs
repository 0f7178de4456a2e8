//! A walk through the children of a BIND content, one after the other (rule 6.4). The content is
//! judged first, as for each look-up.

use crate::content::bind::{self, Part};
use crate::content::cleaned;
use crate::fault::number;
use crate::text;

/// Where one child stands: places are counted from the front of the content.
#[derive(Clone, Copy, Debug, Default, PartialEq, Eq)]
pub struct Step {
    pub number: u8,
    /// How many children there are from this one on; without one, all that follows is 0.
    pub left: u64,
    pub type_at: u64,
    pub type_len: u64,
    pub name_at: u64,
    pub name_len: u64,
    pub at: u64,
    pub len: u64,
    /// Of the whole content.
    pub clean: bool,
}

/// The type, the name and the data at the places of a step, each as far as the content goes.
pub type Parts<'a> = [&'a [u8]; 3];

/// One step for each child, and one past the last; of a refused content that with its number.
pub fn walk(content: &[u8]) -> Vec<Step> {
    let judged = cleaned(b"BIND", content);
    let end = Step {
        number: number(&judged),
        clean: judged.is_ok_and(|cleaned| cleaned == content),
        ..Step::default()
    };
    let children = match end.number {
        0 => bind::split(content).expect("an accepted BIND"),
        _ => Vec::new(),
    };
    let mut steps = children_of(&children, end.clean);
    steps.push(end);
    steps
}

/// The places follow from the children alone: a header each, then the table, then the data.
fn children_of(children: &[Part], clean: bool) -> Vec<Step> {
    let table: usize = children.iter().map(|child| child.name.len() + 1).sum();
    let mut type_at = 2;
    let mut name_at = 4 + 20 * children.len();
    let mut at = name_at + table.next_multiple_of(2);
    let left = (1..=children.len()).rev();
    let place = |(left, child): (usize, &Part)| {
        let step = Step {
            number: 0,
            left: wide(left),
            type_at: wide(type_at),
            type_len: wide(child.type_text.len()),
            name_at: wide(name_at),
            name_len: wide(child.name.len()),
            at: wide(at),
            len: wide(child.data.len()),
            clean,
        };
        type_at += 20;
        name_at += child.name.len() + 1;
        at += child.data.len().next_multiple_of(2);
        step
    };
    left.zip(children).map(place).collect()
}

/// The step after any other, of whatever content: a header further, past the name and its 0, past
/// the data and their pad, and never past the end. What the content lacks there counts as absent.
pub fn next(content: &[u8], step: Step) -> Step {
    if step.number != 0 || step.left == 0 {
        return step;
    }
    let Step { left, clean, .. } = step;
    if left == 1 {
        return Step {
            clean,
            ..Step::default()
        };
    }
    let within = |place: u128| wide(content.len()).min(u64::try_from(place).unwrap_or(u64::MAX));
    let type_at = within(u128::from(step.type_at) + 20);
    let name_at = within(u128::from(step.name_at) + u128::from(step.name_len) + 1);
    let padded = u128::from(step.len).next_multiple_of(2);
    let size = slice(content, type_at, 20).get(12..).unwrap_or_default();
    Step {
        number: 0,
        left: left - 1,
        type_at,
        type_len: wide(text::in_field(slice(content, type_at, 12)).len()),
        name_at,
        name_len: wide(text::in_field(slice(content, name_at, u64::MAX)).len()),
        at: within(u128::from(step.at) + padded),
        len: size
            .iter()
            .fold(0, |size, &byte| (size << 8) | u64::from(byte)),
        clean,
    }
}

pub fn parts(content: &[u8], step: Step) -> Parts<'_> {
    [
        slice(content, step.type_at, step.type_len),
        slice(content, step.name_at, step.name_len),
        slice(content, step.at, step.len),
    ]
}

/// As many of these bytes as there are.
fn slice(content: &[u8], at: u64, length: u64) -> &[u8] {
    let near = |place: u64| usize::try_from(place).unwrap_or(usize::MAX);
    let rest = content.get(near(at)..).unwrap_or_default();
    &rest[..near(length).min(rest.len())]
}

impl Step {
    /// The nine fields in order, the mark as 1 or 0.
    pub fn numbers(&self) -> [u64; 9] {
        [
            self.number.into(),
            self.left,
            self.type_at,
            self.type_len,
            self.name_at,
            self.name_len,
            self.at,
            self.len,
            self.clean.into(),
        ]
    }

    /// Of the number and the mark the last byte counts.
    pub fn from_numbers(numbers: [u64; 9]) -> Self {
        let [number, left, type_at, type_len, name_at, name_len, at, len, clean] = numbers;
        Step {
            number: number.to_be_bytes()[7],
            left,
            type_at,
            type_len,
            name_at,
            name_len,
            at,
            len,
            clean: clean.to_be_bytes()[7] != 0,
        }
    }
}

fn wide(number: usize) -> u64 {
    number as u64
}

#[cfg(test)]
mod tests {
    use super::{next, parts, walk, Step};
    use crate::content::bind::{join, Part};
    use crate::lookup::by_index;

    fn three() -> Vec<u8> {
        let part = |type_text, name, data| Part {
            type_text,
            name,
            data,
        };
        join(&[
            part(&b"P"[..], &b"AB"[..], &b"abc"[..]),
            part(b"QRS", b"", b""),
            part(b"TWELVE_BYTES", b"CD", b"q"),
        ])
        .unwrap()
    }

    #[test]
    fn each_child_and_the_end() {
        let numbers = walk(&three()).iter().map(Step::numbers).collect::<Vec<_>>();
        assert_eq!(
            numbers,
            [
                [0, 3, 2, 1, 64, 2, 72, 3, 1],
                [0, 2, 22, 3, 67, 0, 76, 0, 1],
                [0, 1, 42, 12, 68, 2, 76, 1, 1],
                [0, 0, 0, 0, 0, 0, 0, 0, 1],
            ]
        );
    }

    #[test]
    fn the_parts_are_those_of_look_ups() {
        let content = three();
        for (index, step) in (0..3).zip(walk(&content)) {
            let found = by_index(&content, index).unwrap();
            let Part {
                type_text,
                name,
                data,
            } = found.child;
            assert_eq!(parts(&content, step), [type_text, name, data]);
            assert_eq!(step.at, found.at as u64);
        }
    }

    #[test]
    fn each_step_leads_to_the_next() {
        let content = three();
        let steps = walk(&content);
        for pair in steps.windows(2) {
            assert_eq!(next(&content, pair[0]), pair[1]);
        }
        assert_eq!(next(&content, steps[3]), steps[3]);
        assert_eq!(walk(&[0; 4]), [steps[3]]);
    }

    #[test]
    fn a_rest_behind_a_type_shows_in_the_mark() {
        let mut content = three();
        content[13] = 0xFF;
        assert!(walk(&content).iter().all(|step| !step.clean));
        assert_eq!(
            walk(&content)[0].numbers()[..8],
            walk(&three())[0].numbers()[..8]
        );
    }

    #[test]
    fn a_refused_content_has_no_child() {
        let refused = Step {
            number: 10,
            ..Step::default()
        };
        assert_eq!(walk(&[0; 3]), [refused]);
        assert_eq!(next(&[0; 3], refused), refused);
    }

    #[test]
    fn any_cursor_has_a_next_within_the_content() {
        let anywhere = Step::from_numbers([0, 7, 1, 9, 2, 1, 2, 1, 1]);
        let bytes = [1, 2, 3, 4, 5, 6];
        assert_eq!(
            next(&bytes, anywhere).numbers(),
            [0, 6, 6, 0, 4, 2, 4, 0, 1]
        );
        assert_eq!(
            parts(&bytes, anywhere),
            [&bytes[1..], &bytes[2..3], &bytes[2..3]]
        );
        let far =
            Step::from_numbers([0, 2, u64::MAX, 9, u64::MAX, u64::MAX, u64::MAX, u64::MAX, 0]);
        assert_eq!(next(&bytes, far).numbers(), [0, 1, 6, 0, 6, 0, 6, 0, 0]);
        assert_eq!(parts(&bytes, far), [&[][..]; 3]);
        assert_eq!(Step::from_numbers(far.numbers()), far);
    }
}
