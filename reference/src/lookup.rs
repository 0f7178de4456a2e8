//! Look-ups of a BIND's children (rules 6.1 and 6.2). Each judges the whole content first.

use crate::content::bind::{self, Part};
use crate::content::cleaned;
use crate::fault::Fault;

#[derive(Clone, Copy, Debug, PartialEq, Eq)]
pub enum Source {
    Site,
    Default,
}

/// A child, and the place of its data in the content.
#[derive(Clone, Copy, Debug, PartialEq, Eq)]
pub struct Found<'a> {
    pub child: Part<'a>,
    pub at: usize,
    /// Whether only zeros follow each text in the content that it was found in, at all levels.
    pub clean: bool,
}

/// How many children there are.
#[derive(Clone, Copy, Debug, Default, PartialEq, Eq)]
pub struct Count {
    pub children: usize,
    /// As of a child found.
    pub clean: bool,
}

pub fn count(content: &[u8]) -> Result<Count, Fault> {
    Bundle::open(content).map(|bundle| Count {
        children: bundle.children.len(),
        clean: bundle.clean,
    })
}

pub fn by_index(content: &[u8], number: u64) -> Result<Found<'_>, Fault> {
    let bundle = Bundle::open(content)?;
    let number = usize::try_from(number).map_err(|_| Fault::NotFound)?;
    bundle.child(number).ok_or(Fault::NotFound)
}

pub fn by_name<'a>(content: &'a [u8], name: &[u8]) -> Result<Found<'a>, Fault> {
    Bundle::open(content)?.named(name).ok_or(Fault::NotFound)
}

/// The child with the name, looked for in the site's bundle and then in the default one.
pub fn either<'a>(
    site: &'a [u8],
    default: &'a [u8],
    name: &[u8],
) -> Result<(Source, Found<'a>), Fault> {
    let bundles = [
        (Source::Site, Bundle::open(site)?),
        (Source::Default, Bundle::open(default)?),
    ];
    let found = bundles
        .iter()
        .find_map(|(source, bundle)| Some((*source, bundle.named(name)?)));
    found.ok_or(Fault::NotFound)
}

/// An accepted BIND content.
struct Bundle<'a> {
    content: &'a [u8],
    children: Vec<Part<'a>>,
    clean: bool,
}

impl<'a> Bundle<'a> {
    fn open(content: &'a [u8]) -> Result<Self, Fault> {
        let clean = cleaned(b"BIND", content)? == content;
        let children = bind::split(content).ok_or(Fault::Bind)?;
        Ok(Bundle {
            content,
            children,
            clean,
        })
    }

    fn named(&self, name: &[u8]) -> Option<Found<'a>> {
        let mut children = self.children.iter();
        self.child(children.position(|child| child.name == name)?)
    }

    /// The data are the end of the content, so a child's place is counted from there.
    fn child(&self, number: usize) -> Option<Found<'a>> {
        let tail = self.children.get(number..)?;
        let padded = tail
            .iter()
            .map(|child| child.data.len().next_multiple_of(2));
        let at = self.content.len() - padded.sum::<usize>();
        let child = *tail.first()?;
        let clean = self.clean;
        Some(Found { child, at, clean })
    }
}

#[cfg(test)]
mod tests {
    use super::{by_name, by_index, count, either, Count, Source};
    use crate::content::bind::{join, Part};
    use crate::fault::Fault;

    fn bundle(children: &[(&[u8], &[u8])]) -> Vec<u8> {
        let parts = children.iter().map(|&(name, data)| Part {
            type_text: b"STATUS",
            name,
            data,
        });
        join(&parts.collect::<Vec<_>>()).unwrap()
    }

    #[test]
    fn the_first_of_equal_names_is_found() {
        let content = bundle(&[(b"A", b"1"), (b"", b"2"), (b"A", b"3")]);
        assert_eq!(by_name(&content, b"A").unwrap().child.data, b"1");
        assert_eq!(by_name(&content, b"").unwrap().child.data, b"2");
        assert_eq!(by_name(&content, b"B"), Err(Fault::NotFound));
    }

    #[test]
    fn numbers_run_from_0_to_below_the_count() {
        let content = bundle(&[(b"A", b"1"), (b"B", b"2")]);
        let clean = true;
        assert_eq!(count(&content), Ok(Count { children: 2, clean }));
        assert_eq!(by_index(&content, 1).unwrap().child.data, b"2");
        assert_eq!(by_index(&content, 2), Err(Fault::NotFound));
        assert_eq!(by_index(&content, u64::MAX), Err(Fault::NotFound));
        assert_eq!(by_index(&content[1..], 0), Err(Fault::Bind));
    }

    #[test]
    fn a_place_is_where_the_data_stand() {
        let content = bundle(&[(b"A", b"123"), (b"B", b"45"), (b"C", b""), (b"D", b"6")]);
        for number in 0..4 {
            let found = by_index(&content, number).unwrap();
            assert!(content[found.at..].starts_with(found.child.data));
        }
        assert_eq!(by_index(&content, 1).unwrap().at, content.len() - 4);
    }

    #[test]
    fn the_site_comes_first_in_children_and_in_faults() {
        let site = bundle(&[(b"A", b"site")]);
        let default = bundle(&[(b"A", b"default"), (b"B", b"default")]);
        let source = |name| either(&site, &default, name).map(|(source, _)| source);
        assert_eq!(source(b"A"), Ok(Source::Site));
        assert_eq!(source(b"B"), Ok(Source::Default));
        assert_eq!(source(b"C"), Err(Fault::NotFound));
        assert_eq!(either(&site, b"", b"A"), Err(Fault::Bind));
    }
}
