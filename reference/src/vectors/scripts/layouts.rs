//! The layout that a link up names: messages are read in that of the last accepted one.

use super::calls::{add, down, look, message, send, up_in, ARM, TRANSFORM};
use super::Script;
use crate::message::body::Layout::{self, New, Old};
use crate::panel::Call;
use crate::script::{encode, Fields};
use crate::vectors::metadata;
use crate::vectors::samples::Sample;
use crate::vectors::streams;

pub fn scripts() -> Vec<Script> {
    let of_layout = |layout| {
        [
            a_refused_link_up(layout),
            a_switch_while_up(layout),
            a_switch_through_a_link_down(layout),
            the_same_layout_again(layout),
            alike_in_both(layout),
            wrong_sizes(layout),
            the_sample(layout),
        ]
    };
    let of_layouts = Layout::BOTH.into_iter().flat_map(of_layout);
    let single = [before_the_first_link(), small_ids(), numbers_of_layouts()];
    of_layouts.chain(single).collect()
}

/// The Arm's TRANSFORM of V 2 without metadata. In the new layout, the MSG_ID of the old one is a
/// size larger than the body.
fn extended(layout: Layout, value: u8) -> Sample {
    Sample {
        layout,
        version: 2,
        id: 0x0102_0304,
        ..message(TRANSFORM, ARM, &[value; 48])
    }
}

fn numbered(layout: Layout, value: u8) -> Vec<u8> {
    extended(layout, value).bytes()
}

/// With all sections.
fn whole(layout: Layout, value: u8) -> Vec<u8> {
    let sample = Sample {
        further: vec![1, 2, 3],
        metadata: metadata::section(&[(b"unit", b"mm"), (b"note", b"")]),
        ..extended(layout, value)
    };
    sample.bytes()
}

/// These calls on a panel with a tile for the Arm, which shows a value for 500 ms.
fn with_tile(calls: &[Call], clock: u64) -> Script {
    Script::of(&[&[add(TRANSFORM, ARM, 500)], calls].concat(), clock)
}

/// It names the other layout and is too early. Then one that is not.
fn a_refused_link_up(layout: Layout) -> Script {
    let other = layout.other();
    let calls = [
        up_in(layout, 10),
        send(11, &numbered(other, 8)),
        up_in(other, 9),
        send(11, &numbered(other, 8)),
        send(11, &numbered(layout, 7)),
        up_in(other, 10),
        send(11, &whole(layout, 6)),
        up_in(other, 12),
        send(13, &numbered(other, 8)),
        look(0, 13),
        send(13, &numbered(layout, 7)),
    ];
    with_tile(&calls, 13)
}

/// The value stays, though in the other layout its message would not be one.
fn a_switch_while_up(layout: Layout) -> Script {
    let other = layout.other();
    let calls = [
        up_in(layout, 10),
        send(11, &whole(layout, 7)),
        look(0, 11),
        up_in(other, 11),
        look(0, 12),
        send(12, &whole(layout, 8)),
        send(12, &whole(other, 9)),
        look(0, 12),
        up_in(layout, 12),
        look(0, 12),
        send(12, &whole(other, 8)),
        send(12, &whole(layout, 6)),
    ];
    with_tile(&calls, 13)
}

fn a_switch_through_a_link_down(layout: Layout) -> Script {
    let other = layout.other();
    let calls = [
        up_in(layout, 10),
        send(10, &whole(layout, 7)),
        down(11),
        look(0, 11),
        send(11, &whole(layout, 8)),
        send(11, &whole(other, 8)),
        up_in(other, 11),
        send(11, &whole(layout, 8)),
        send(11, &whole(other, 9)),
        look(0, 11),
        down(12),
        up_in(other, 11),
        send(12, &whole(other, 8)),
        up_in(layout, 12),
        send(12, &whole(other, 8)),
    ];
    with_tile(&calls, 12)
}

fn the_same_layout_again(layout: Layout) -> Script {
    let calls = [
        up_in(layout, 10),
        send(10, &whole(layout, 7)),
        up_in(layout, 10),
        look(0, 10),
        send(10, &whole(layout, 8)),
        down(10),
        up_in(layout, 10),
        send(10, &whole(layout, 9)),
        send(10, &whole(layout.other(), 6)),
    ];
    with_tile(&calls, 10)
}

/// MSG_ID is 0, and there is no section or one of no entries: the bytes are the same in both. A
/// message of V 1 has no layout.
fn alike_in_both(layout: Layout) -> Script {
    let bare = |written, value| extended(written, value).with(|sample| sample.id = 0);
    let empty = |written, value| bare(written, value).with(|sample| sample.metadata = vec![0, 0]);
    let plain = message(TRANSFORM, ARM, &[9; 48]).bytes();
    let calls = [
        up_in(layout, 10),
        send(10, &bare(New, 5).bytes()),
        send(11, &bare(Old, 6).bytes()),
        look(0, 11),
        send(12, &empty(New, 7).bytes()),
        send(13, &empty(Old, 8).bytes()),
        look(0, 13),
        send(14, &plain),
    ];
    with_tile(&calls, 14)
}

/// Sections and sizes that are refused, in this layout; nothing of the panel changes.
fn wrong_sizes(layout: Layout) -> Script {
    let sound = extended(layout, 8).with(|sample| sample.further = vec![1]);
    let sections: [&[u8]; 6] = [
        b"\0",
        b"\0\x01",
        b"\x20\0",
        b"\0\0\0",
        b"\0\x01\0\0\0\x03\0\0\0\0",
        b"\0\x01\0\x01\0\x03\0\0\0\0",
    ];
    let of_section = |section: &[u8]| {
        let sample = sound.with(|sample| sample.metadata = section.to_vec());
        send(12, &sample.bytes())
    };
    let refused = sections.map(of_section);
    let first = [up_in(layout, 10), send(11, &whole(layout, 7))];
    let last = [look(0, 11)];
    with_tile(&[&first[..], &refused, &last].concat(), 11)
}

/// Each message of the stored stream of the new layout.
fn the_sample(layout: Layout) -> Script {
    let stream = streams::new_layout();
    let messages = streams::messages(&stream);
    let sent = messages.into_iter().map(|bytes| send(11, bytes));
    let calls = [up_in(layout, 10)].into_iter().chain(sent);
    with_tile(&calls.collect::<Vec<_>>(), 11)
}

/// In the new layout, the MSG_ID of the old one is a size that the content is long enough for.
fn small_ids() -> Script {
    let [new, old] = Layout::BOTH.map(|layout| {
        let sample = extended(layout, 7).with(|sample| sample.id = 5);
        sample.bytes()
    });
    let calls = [
        up_in(Old, 10),
        send(11, &new),
        up_in(New, 9),
        send(11, &new),
        send(11, &old),
        up_in(New, 12),
        send(13, &new),
        send(13, &old),
    ];
    with_tile(&calls, 13)
}

fn before_the_first_link() -> Script {
    let sent = Layout::BOTH.map(|layout| send(0, &whole(layout, 7)));
    with_tile(&[&sent[..], &[look(0, 0)]].concat(), 0)
}

/// 1 names the old layout. In fewer bits some others are 1.
fn numbers_of_layouts() -> Script {
    let numbers = [
        1,
        0,
        2,
        3,
        255,
        256,
        257,
        1 << 32 | 1,
        1 << 63 | 1,
        u64::MAX,
        1,
    ];
    let calls = numbers.map(|number| {
        let link = Fields {
            number,
            ..Fields::of(&up_in(New, 10))
        };
        let sent = Layout::BOTH.map(|layout| send(10, &numbered(layout, 7)));
        [link.encode(), encode(&sent)].concat()
    });
    let tile = encode(&[add(TRANSFORM, ARM, 500)]);
    Script {
        bytes: [tile, calls.concat()].concat(),
        clock: 10,
    }
}

#[cfg(test)]
mod tests {
    use super::{
        a_refused_link_up, a_switch_through_a_link_down, a_switch_while_up, alike_in_both,
        before_the_first_link, numbers_of_layouts, small_ids, the_same_layout_again, the_sample,
        wrong_sizes, Layout, Script,
    };

    /// What both layouts answer after the adding.
    fn assert_both(script: fn(Layout) -> Script, line: &str) {
        for layout in Layout::BOTH {
            assert_eq!(script(layout).brief(), format!("added 0, {line}"));
        }
    }

    #[test]
    fn a_refused_link_up_names_nothing() {
        let line = "accepted, refused 6, refused 15, refused 6, accepted, refused 15, accepted, \
                    accepted, accepted, green 0 8, refused 6 | green 0 8";
        assert_both(a_refused_link_up, line);
    }

    #[test]
    fn a_small_id_is_the_size_of_a_section() {
        let line = "accepted, refused 6, refused 15, refused 6, accepted, accepted, accepted, \
                    refused 7 | green 0 7";
        assert_eq!(small_ids().brief(), format!("added 0, {line}"));
    }

    #[test]
    fn switches() {
        let line = "accepted, accepted, green 0 7, accepted, grey 1 7, refused 6, accepted, \
                    green 0 9, accepted, grey 0 9, refused 6, accepted | green 1 6";
        assert_both(a_switch_while_up, line);
        let line = "accepted, accepted, accepted, grey 1 7, refused 14, refused 14, accepted, \
                    refused 6, accepted, green 0 9, accepted, refused 15, refused 14, accepted, \
                    refused 6 | grey 1 9";
        assert_both(a_switch_through_a_link_down, line);
        let line =
            "accepted, accepted, accepted, grey 0 7, accepted, accepted, accepted, accepted, \
                    refused 6 | green 0 9";
        assert_both(the_same_layout_again, line);
    }

    #[test]
    fn what_has_no_layout_counts_in_both() {
        let line =
            "accepted, accepted, accepted, green 0 6, accepted, accepted, green 0 8, accepted \
                    | green 0 9";
        assert_both(alike_in_both, line);
    }

    #[test]
    fn sections_that_are_refused() {
        let refused = ["refused 7"; 6].join(", ");
        let line = format!("accepted, accepted, {refused}, green 0 7 | green 0 7");
        assert_both(wrong_sizes, &line);
    }

    /// Only its TRANSFORM is the tile's.
    #[test]
    fn the_sample_in_both_layouts() {
        let [new, old] = Layout::BOTH.map(|layout| the_sample(layout).brief());
        let numbers = "refused 13, refused 13, refused 6, refused 7, refused 13";
        assert_eq!(
            new,
            format!("added 0, accepted, accepted, {numbers} | green 0 7")
        );
        let numbers = "refused 6, refused 6, refused 6, refused 13, refused 6, refused 6";
        assert_eq!(old, format!("added 0, accepted, {numbers} | empty"));
    }

    #[test]
    fn no_layout_before_the_first_link() {
        let line = "added 0, refused 14, refused 14, empty | empty";
        assert_eq!(before_the_first_link().brief(), line);
    }

    #[test]
    fn only_1_names_the_old_layout() {
        let old = "accepted, refused 6, accepted";
        let new = ["accepted, accepted, refused 6"; 9].join(", ");
        let line = format!("added 0, {old}, {new}, {old} | green 0 7");
        assert_eq!(numbers_of_layouts().brief(), line);
    }
}
