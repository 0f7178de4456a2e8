//! Cases of walks through the children of a BIND: each cursor of a content, and any cursor on any
//! bytes.

use super::bundles::{bundle, mixed, nest, part, samples, sound, EMPTY};
use super::case::Case;
use super::rests::{changed, FILLED, KINDS};
use super::trees;
use crate::random::Random;
use crate::walk::{next, parts, walk, Step};

const SEED: u64 = 14;
const TREES: usize = 150;
const ANY: usize = 150;

pub fn cases() -> Vec<Case> {
    let mut random = Random::new(SEED);
    let of_contents = |contents: Vec<Vec<u8>>| -> Vec<Case> {
        contents.iter().map(|content| walk_case(content)).collect()
    };
    [
        of_contents(samples()),
        of_contents(sizes()),
        of_contents(marks()),
        of_contents(many()),
        of_contents(random_contents(&mut random)),
        strange_cursors(),
        random_cursors(&mut random),
    ]
    .concat()
}

/// The whole walk, and the cursor after its end.
pub fn walk_case(content: &[u8]) -> Case {
    let steps = walk(content);
    let end = *steps.last().expect("a last step");
    let printed = steps.into_iter().chain([next(content, end)]);
    printed.fold(Case::of_kind('F').given(content), |case, step| {
        with_parts(case.numbers(step.numbers()), content, step)
    })
}

/// The cursor after any other, and the parts of that other.
pub fn next_case(content: &[u8], numbers: [u64; 9]) -> Case {
    let step = Step::from_numbers(numbers);
    let case = Case::of_kind('N')
        .given(content)
        .given(&numbers.map(u64::to_be_bytes).concat())
        .numbers(next(content, step).numbers());
    with_parts(case, content, step)
}

fn with_parts(case: Case, content: &[u8], step: Step) -> Case {
    let parts = parts(content, step);
    parts.into_iter().fold(case, |case, part| case.bytes(part))
}

/// Three children with data of 0 to 3 bytes and names of 0 to 3 bytes each; a type of no byte and
/// of all twelve.
fn sizes() -> Vec<Vec<u8>> {
    let bytes = b"abc";
    let of_lengths = |data: usize, name: usize| {
        bundle(&[
            part(b"P", &bytes[..name], &bytes[..data]),
            part(
                b"TWELVE_BYTES",
                &bytes[..(name + data) % 4],
                &bytes[..3 - data],
            ),
            part(b"", &bytes[..3 - name], &bytes[..(data + 1) % 4]),
        ])
    };
    let lengths = (0..4).flat_map(|data| (0..4).map(move |name| (data, name)));
    lengths.map(|(data, name)| of_lengths(data, name)).collect()
}

/// Something other than zeros behind a type: of each child, and of a child's child.
fn marks() -> Vec<Vec<u8>> {
    let content = mixed();
    let each = (0..4).flat_map(|child| {
        let field = 2 + 20 * child..14 + 20 * child;
        KINDS.map(|kind| changed(&content, field.clone(), kind))
    });
    let inner = changed(&content, 2..14, FILLED);
    each.chain([nest(1, &inner), nest(2, &inner)]).collect()
}

/// 300 children with all lengths of names and data up to six, and as many that hold nothing.
fn many() -> Vec<Vec<u8>> {
    let bytes = [7; 6];
    let child = |place: usize| part(b"STATUS", &bytes[..place % 7], &bytes[..place / 7 % 7]);
    let children: Vec<_> = (0..300).map(child).collect();
    [bundle(&children), bundle(&[part(b"", b"", b""); 300])].to_vec()
}

fn random_contents(random: &mut Random) -> Vec<Vec<u8>> {
    let mut pair = || {
        let sound = trees::bind(random).encode();
        let damaged = trees::damaged(random, &sound);
        [sound, damaged]
    };
    (0..TREES).flat_map(|_| pair()).collect()
}

/// Contents that a cursor is used on: none, few bytes, no child, children, and a refused one.
fn contents() -> Vec<Vec<u8>> {
    let refused = [&mixed()[..], &[0]].concat();
    [
        vec![],
        vec![7],
        (1..=6).collect(),
        EMPTY.to_vec(),
        mixed(),
        refused,
    ]
    .to_vec()
}

/// On each of these: zeros, places past the end, each field as large as can be, refused, no child
/// left, the cursors of other contents.
fn strange_cursors() -> Vec<Case> {
    let few = [0, 7, 1, 9, 2, 1, 2, 1, 1];
    let largest = (0..9).map(|field| {
        let mut numbers = few;
        numbers[field] = u64::MAX;
        numbers
    });
    let past = [1 << 16, 1 << 32, 1 << 63, u64::MAX];
    let past = past.map(|far| [0, 2, far, far, far, far, far, far, 0]);
    let given = [
        [0; 9],
        few,
        [0, 1, 1, 9, 2, 1, 2, 1, 1],
        [0, 2, 2, 9, 2, 2, 2, 2, 0],
        [0, 0, 1, 9, 2, 1, 2, 1, 1],
        [7, 3, 1, 9, 2, 1, 2, 1, 1],
        [256, 7, 1, 9, 2, 1, 2, 1, 256],
        [u64::MAX; 9],
        [0, u64::MAX, 0, 1, 0, 0, 0, 3, 1],
    ];
    let others = sound()
        .iter()
        .flat_map(|content| walk(content))
        .map(|step| step.numbers())
        .collect::<Vec<_>>();
    let cursors: Vec<_> = given
        .into_iter()
        .chain(largest)
        .chain(past)
        .chain(others)
        .collect();
    let of_content = |content: &Vec<u8>| -> Vec<Case> {
        cursors.iter().map(|&c| next_case(content, c)).collect()
    };
    contents().iter().flat_map(of_content).collect()
}

/// Numbers around the length of a content, on sound and damaged ones.
fn random_cursors(random: &mut Random) -> Vec<Case> {
    let mut case = || {
        let content = trees::bind(random).encode();
        let content = trees::damaged(random, &content);
        let mut numbers = [0; 9].map(|_: u64| random.below(content.len() + 3) as u64);
        numbers[0] = u64::from(random.below(8) == 0);
        numbers[8] = random.below(2) as u64;
        next_case(&content, numbers)
    };
    (0..ANY).map(|_| case()).collect()
}

#[cfg(test)]
mod tests {
    use super::{cases, many, marks, next_case, sizes, walk_case};
    use crate::vectors::case::output;
    use crate::walk::walk;

    fn line(case: super::Case) -> String {
        String::from_utf8(output(&[case])).unwrap()
    }

    #[test]
    fn a_line_has_each_cursor_and_one_past_the_end() {
        let words = |content: &[u8]| line(walk_case(content)).split(' ').count();
        assert_eq!(
            line(walk_case(&[0; 4])),
            "F 0 0 0 0 0 0 0 0 1 - - - 0 0 0 0 0 0 0 0 1 - - -\n"
        );
        assert_eq!(
            line(walk_case(&[])),
            "F 10 0 0 0 0 0 0 0 0 - - - 10 0 0 0 0 0 0 0 0 - - -\n"
        );
        assert_eq!(words(&many()[0]), 1 + 12 * 302);
    }

    #[test]
    fn a_line_has_the_next_cursor_and_the_parts_of_the_given_one() {
        let case = next_case(&[1, 2, 3, 4, 5, 6], [0, 7, 1, 9, 2, 1, 2, 1, 1]);
        assert_eq!(line(case), "N 0 6 6 0 4 2 4 0 1 0203040506 03 03\n");
    }

    #[test]
    fn the_contents_made_here_are_accepted() {
        let contents = [sizes(), marks(), many()].concat();
        assert!(contents.iter().all(|content| walk(content)[0].number == 0));
        let clean = |contents: &[Vec<u8>]| contents.iter().filter(|c| walk(c)[0].clean).count();
        assert_eq!([clean(&sizes()), clean(&many())], [16, 2]);
        assert!(clean(&marks()) < marks().len());
    }

    #[test]
    fn each_number_of_a_bind_is_met() {
        let lines: Vec<String> = cases().into_iter().map(line).collect();
        for number in [0, 8, 9, 10, 11] {
            let start = format!("F {number} ");
            assert!(
                lines.iter().any(|line| line.starts_with(&start)),
                "{number}"
            );
        }
    }
}
