//! BINDs in BINDs with bytes after the text of one CTYPE, at each level; contents that only look
//! like a BIND; and two bundles.

use super::fields::{sent, written, written_as_data};
use super::{by_chance, changed, type_fields, FILLED, KINDS};
use crate::random::Random;
use crate::vectors::bundles::{bundle, nest, part};
use crate::vectors::case::Case;
use crate::vectors::children::{self, either_case, lookup_case};
use crate::vectors::contents::{self, typed_case};
use crate::vectors::message_writers::exact_case;
use crate::vectors::messages::{self, message_case};
use crate::vectors::out::Out;
use crate::vectors::patched::Patched;
use crate::vectors::samples::{mended, set, Sample};
use crate::vectors::trees;
use crate::vectors::writers::Lists;

const SEED: u64 = 29;

pub fn cases() -> Vec<Case> {
    let each = each_level();
    let looked_up = each.iter().map(|content| lookup_case(content, 0, b"A"));
    let samples = samples(&each);
    let sent_each = samples.iter().map(|sample| message_case(&sample.bytes()));
    // Those of four levels; those of three and one of four, which is too deep for a child's data.
    let in_messages = samples[6..].iter().map(exact_case);
    let as_data = each[3..7].iter().map(|content| written_as_data(content));
    let deep = too_deep();
    let sent_deep = deep.last().map(|content| sent(content));
    let deep = deep.iter().map(|content| typed_case(b"BIND", content));
    let deep = deep.chain(sent_deep);
    let read = looked_up.chain(sent_each).chain(deep);
    let each = read.chain(in_messages).chain(as_data);
    let others = [opaque(), pairs(), long(), chances()].concat();
    each.chain(others).collect()
}

/// Bundles of so many levels, the innermost with a child of no bytes.
fn levels(count: usize) -> Vec<u8> {
    nest(count - 1, &bundle(&[part(b"AB", b"A", b"")]))
}

/// One to four levels, each with one CTYPE changed; of four also with all of them.
pub fn each_level() -> Vec<Vec<u8>> {
    let of_count = |count| {
        let content = levels(count);
        let fields = type_fields(&content).into_iter();
        fields.map(move |field| changed(&content, field, KINDS[4]))
    };
    let single = (1..=4).flat_map(of_count);
    single.chain([all_changed(&levels(4))]).collect()
}

/// The messages of these contents, the last two with all sections of V 2.
fn samples(contents: &[Vec<u8>]) -> Vec<Sample> {
    let samples = contents
        .iter()
        .map(|content| Sample::plain(b"BIND", content));
    let mut samples: Vec<Sample> = samples.collect();
    for sample in samples.iter_mut().rev().take(2) {
        sample.version = 2;
        sample.further = vec![1, 2, 3];
        sample.metadata = vec![0, 0];
    }
    samples
}

fn all_changed(content: &[u8]) -> Vec<u8> {
    let fields = type_fields(content).into_iter();
    fields.fold(content.to_vec(), |content, field| {
        changed(&content, field, FILLED)
    })
}

/// A BIND at level 5, with each of the CTYPEs changed, in it too.
fn too_deep() -> Vec<Vec<u8>> {
    let content = levels(5);
    let fields = type_fields(&content).into_iter();
    fields
        .map(|field| changed(&content, field, FILLED))
        .collect()
}

/// A BIND's bytes, changed, as the content of another type, in a message and in a child.
fn opaque() -> Vec<Case> {
    let bytes = all_changed(&levels(2));
    let bind = bundle(&[part(b"BINDX", b"A", &bytes)]);
    let sample = Sample::plain(b"STATUS", &bytes);
    vec![
        typed_case(b"STATUS", &bytes),
        message_case(&sample.bytes()),
        exact_case(&sample),
        Lists::of(&[part(b"STATUS", b"N", &bytes)]).case(Out::new(78)),
        lookup_case(&bind, 0, b"A"),
        sent(&bind),
        written(&bind),
        written_as_data(&bind),
    ]
}

/// Clean or not, the site's and the default one; a child of the site's, one of the default and
/// none; then refused ones.
fn pairs() -> Vec<Case> {
    let site = bundle(&[part(b"AB", b"A", b"s")]);
    let inner = bundle(&[part(b"CD", b"A", b"")]);
    let default = bundle(&[part(b"AB", b"A", b"d"), part(b"BIND", b"B", &inner)]);
    let dirty_site = changed(&site, 2..14, FILLED);
    let nested = type_fields(&default)
        .pop()
        .expect("the CTYPE of the inner bundle");
    let dirty_default = changed(&default, nested, KINDS[4]);
    let names = [b"A", b"B", b"C"];
    let of_pair =
        |site: &Vec<u8>, default: &Vec<u8>| names.map(|name| either_case(site, default, name));
    let pairs = [
        of_pair(&site, &dirty_default),
        of_pair(&dirty_site, &default),
        of_pair(&dirty_site, &dirty_default),
    ];
    let refused = [
        either_case(&dirty_site, &set(&site, 2, 0x80), b"A"),
        either_case(&set(&dirty_site, 2, 0x80), &dirty_default, b"A"),
    ];
    let looked_up = [
        lookup_case(&dirty_default, 0, b"B"),
        lookup_case(&dirty_default, 1, b"C"),
    ];
    [&pairs.concat()[..], &refused, &looked_up].concat()
}

/// Many children without bytes, whose last CTYPE is all zeros but for its last byte.
fn long() -> Vec<Case> {
    let most = Patched::children(65_534).patch(65_546, 1);
    let some = Patched::children(65_000);
    let last = 58 + 2 + 20 * 64_999 + 11;
    let message = Sample::plain(b"BIND", &some.content()).bytes();
    let dirty = mended(set(&message, last, 1));
    vec![
        contents::patched_case(b"BIND", &most),
        contents::patched_case(b"BINDX", &most),
        children::patched_case(&most, 65_533, b""),
        children::patched_case(&most, 0, b"A"),
        messages::patched_case(&dirty),
        messages::patched_case(&set(&dirty, last, 0)),
    ]
}

/// Short trees with something by chance after the texts: looked up in, and written as data.
fn chances() -> Vec<Case> {
    let mut random = Random::new(SEED);
    let trees = std::iter::repeat_with(|| trees::bind(&mut random).encode());
    let trees = trees.filter(|content| (60..140).contains(&content.len()));
    let trees: Vec<_> = trees.take(10).collect();
    let cases = trees.iter().enumerate().map(|(place, content)| {
        let content = by_chance(&mut random, content, &type_fields(content));
        if place % 3 == 0 {
            written_as_data(&content)
        } else {
            lookup_case(&content, 1, random.pick(&trees::NAMES))
        }
    });
    cases.collect()
}

#[cfg(test)]
mod tests {
    use super::{each_level, levels, too_deep};
    use crate::content::{cleaned, is_clean, parse};
    use crate::fault::number;

    #[test]
    fn one_text_at_any_level_decides() {
        let contents = each_level();
        let counts = [1, 2, 2, 3, 3, 3, 4, 4, 4, 4, 4];
        assert_eq!(contents.len(), counts.len());
        for (content, count) in contents.iter().zip(counts) {
            assert!(!is_clean(b"BIND", content));
            assert!(is_clean(b"BINDX", content));
            assert_eq!(cleaned(b"BIND", content), Ok(levels(count)));
            assert!(is_clean(b"BIND", &levels(count)));
        }
    }

    #[test]
    fn level_5_is_too_deep_whatever_follows_its_texts() {
        assert_eq!(too_deep().len(), 5);
        let mut contents = too_deep().into_iter();
        assert!(contents.all(|content| number(&parse(b"BIND", &content)) == 11));
    }
}
