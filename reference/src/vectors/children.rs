//! Cases of children: look-ups by index and by name, in one bundle and in two.

use super::bundles::{bundle, nest, part, samples, sound, EMPTY};
use super::case::Case;
use super::patched::Patched;
use super::trees;
use crate::fault::{number, Fault};
use crate::lookup::{by_name, by_index, count, either, Found, Source};
use crate::random::Random;

const SEED: u64 = 3;
const TREES: usize = 150;

pub fn cases() -> Vec<Case> {
    let mut random = Random::new(SEED);
    [
        every_sample(),
        numbers(),
        names(),
        random_cases(&mut random),
        many_children(),
        two_bundles(),
        random_pairs(&mut random),
    ]
    .concat()
}

/// All that is answered of one bundle: the count, the child of a number, the child of a name.
pub fn lookup_case(content: &[u8], index: u64, name: &[u8]) -> Case {
    let case = Case::of_kind('L').given(content);
    answered(case, content, index, name)
}

fn answered(case: Case, content: &[u8], index: u64, name: &[u8]) -> Case {
    let counted = count(content);
    let numbered = by_index(content, index);
    let named = by_name(content, name);
    let text = |text: fn(&Found) -> Vec<u8>| numbered.as_ref().map_or(Vec::new(), text);
    let case = case
        .given(&index.to_be_bytes())
        .given(name)
        .number(number(&counted))
        .number(counted.unwrap_or_default().children)
        .mark(counted.unwrap_or_default().clean)
        .number(number(&numbered))
        .bytes(&text(|found| found.child.type_text.to_vec()))
        .bytes(&text(|found| found.child.name.to_vec()));
    let case = placed(case, &numbered).number(number(&named));
    placed(case, &named)
}

/// The number, the place, the mark and the bytes of a child; nothing of it where refused.
fn placed(case: Case, found: &Result<Found, Fault>) -> Case {
    let (at, data, clean) = match found {
        Ok(found) => (found.at, found.child.data, found.clean),
        Err(_) => (0, &[][..], false),
    };
    case.number(number(found))
        .number(at)
        .number(data.len())
        .mark(clean)
        .bytes(data)
}

pub fn either_case(site: &[u8], default: &[u8], name: &[u8]) -> Case {
    let answer = either(site, default, name);
    let source = match &answer {
        Ok((Source::Site, _)) => 1,
        Ok((Source::Default, _)) => 2,
        Err(_) => 0,
    };
    let case = Case::of_kind('E')
        .given(site)
        .given(default)
        .given(name)
        .number(number(&answer))
        .number(source)
        .number(source);
    placed(case, &answer.map(|(_, found)| found))
}

fn every_sample() -> Vec<Case> {
    let cases = samples().into_iter();
    cases
        .map(|content| lookup_case(&content, 0, b"A"))
        .collect()
}

/// Each number of each sound bundle, and some past the count.
fn numbers() -> Vec<Case> {
    let of_bundle = |content: &Vec<u8>| {
        let count = count(content).expect("a sound bundle").children as u64;
        let past = [count + 1, 255, 65_535, 65_536, 1 << 32, 1 << 63, u64::MAX];
        let numbers = (0..=count).chain(past);
        let cases = numbers.map(|index| lookup_case(content, index, b""));
        cases.collect::<Vec<_>>()
    };
    sound().iter().flat_map(of_bundle).collect()
}

/// Names that are there, the first of equal ones, parts of them, and what can be no name.
fn names() -> Vec<Case> {
    let names: [&[u8]; 15] = [
        b"",
        b"A",
        b"AB",
        b"Arm",
        b"arm",
        b"Ar",
        b"Arm\0",
        b"A\0Arm",
        b"\0",
        b"\0\0",
        b"\xFF",
        b"Arm\x80",
        b"Needle",
        b"Scan",
        &[127; 300],
    ];
    let of_bundle = |content: &Vec<u8>| names.map(|name| lookup_case(content, 0, name));
    sound().iter().flat_map(of_bundle).collect()
}

fn random_cases(random: &mut Random) -> Vec<Case> {
    let mut cases = Vec::new();
    for _ in 0..TREES {
        let sound = trees::bind(random).encode();
        let damaged = trees::damaged(random, &sound);
        for content in [sound, damaged] {
            let index = random.below(6) as u64;
            cases.push(lookup_case(&content, index, random.pick(&trees::NAMES)));
        }
    }
    cases
}

/// Look-ups at the far end of as many children as fit.
fn many_children() -> Vec<Case> {
    let most = Patched::children(65_534);
    // The last of 65,533 children is named by the byte 1.
    let last_named = Patched::children(65_533).patch(2, 0x0100);
    let cases: [(&Patched, u64, &[u8]); 5] = [
        (&most, 65_533, b""),
        (&most, 65_534, b"A"),
        (&most.clone().patch(2, 1), 65_533, b""),
        (&last_named, 65_532, b"\x01"),
        (&last_named, 65_533, b"\x02"),
    ];
    let cases = cases.map(|(patched, index, name)| patched_case(patched, index, name));
    cases.to_vec()
}

/// A bundle too long for a record.
pub fn patched_case(patched: &Patched, index: u64, name: &[u8]) -> Case {
    let [length, changes] = patched.fields();
    let case = Case::of_kind('M').given(&length).given(&changes);
    answered(case, &patched.content(), index, name)
}

/// A bundle for each number that its check can give, the sound ones with names in common.
fn pairable() -> [Vec<u8>; 9] {
    let short = part(b"TRANSFORM", b"A", &[0; 47]);
    let image = part(b"IMAGE", b"A", &[0; 72]);
    let first = part(b"STATUS", b"A", b"one");
    let second = part(b"STRING", b"B", b"two two");
    let third = part(b"STATUS", b"A", b"three");
    let unnamed = part(b"", b"", b"");
    [
        EMPTY.to_vec(),
        bundle(&[first, second]),
        bundle(&[third, unnamed, first]),
        bundle(&[second, third]),
        bundle(&[short]),
        bundle(&[image]),
        vec![0; 3],
        vec![],
        nest(4, &[]),
    ]
}

/// Each of them as the site's bundle with each as the default one.
fn two_bundles() -> Vec<Case> {
    let bundles = pairable();
    let names: [&[u8]; 5] = [b"A", b"B", b"", b"C", b"A\0"];
    let pairs = bundles
        .iter()
        .flat_map(|site| bundles.iter().map(move |default| (site, default)));
    let cases =
        pairs.flat_map(|(site, default)| names.map(|name| either_case(site, default, name)));
    cases.collect()
}

fn random_pairs(random: &mut Random) -> Vec<Case> {
    let mut case = || {
        let [site, default] = [(); 2].map(|()| {
            let content = trees::bind(random).encode();
            if random.below(4) == 0 {
                trees::damaged(random, &content)
            } else {
                content
            }
        });
        either_case(&site, &default, random.pick(&trees::NAMES))
    };
    (0..TREES).map(|_| case()).collect()
}
