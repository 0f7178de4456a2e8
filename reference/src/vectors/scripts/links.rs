//! The link: a tile does not stay green when it is lost, nor on a new one.

use super::calls::{add, after_start, arm, down, look, needle, send, start, up};
use super::calls::{NEEDLE, POSITION};
use super::Script;
use crate::panel::Call;

pub fn scripts() -> Vec<Script> {
    let single = [
        loose_cable(),
        loose_cable_of_two_tiles(),
        reconnect_after_a_link_down(),
        reconnect_while_up(),
        a_new_message_for_one_of_two(),
        a_refused_link_call_ends_no_green(),
        a_link_call_moves_the_clock(),
        no_message_without_a_link(),
        links_of_an_empty_tile(),
    ];
    [single.to_vec(), three_link_calls()].concat()
}

/// The cable comes off while the tile is green, well before its hold time.
fn loose_cable() -> Script {
    let calls = [
        look(0, 1300),
        down(1300),
        look(0, 1300),
        look(0, 1301),
        send(1302, &arm(8)),
        look(0, 1302),
        look(0, 1701),
    ];
    after_start(&calls, 1300)
}

fn loose_cable_of_two_tiles() -> Script {
    let calls = [
        add(POSITION, NEEDLE, 60_000),
        send(1250, &needle(12, 8)),
        look(0, 1250),
        look(1, 1250),
        down(1250),
        look(0, 1250),
        look(1, 1250),
    ];
    after_start(&calls, 1251)
}

/// The old pose stays grey on the new link, until a new one comes.
fn reconnect_after_a_link_down() -> Script {
    let calls = [
        down(1300),
        up(1400),
        look(0, 1400),
        look(0, 1700),
        send(1500, &arm(8)),
        look(0, 1500),
    ];
    after_start(&calls, 2000)
}

fn reconnect_while_up() -> Script {
    let calls = [
        up(1200),
        look(0, 1200),
        send(1200, &arm(7)),
        look(0, 1200),
        up(1200),
        up(1200),
        look(0, 1200),
    ];
    after_start(&calls, 1200)
}

fn a_new_message_for_one_of_two() -> Script {
    let calls = [
        add(POSITION, NEEDLE, 500),
        send(1250, &needle(12, 8)),
        up(1300),
        send(1300, &needle(12, 9)),
        look(0, 1300),
        look(1, 1300),
    ];
    after_start(&calls, 1300)
}

/// The tile stays green, and the link up.
fn a_refused_link_call_ends_no_green() -> Script {
    let calls = [
        down(1199),
        look(0, 1200),
        up(0),
        look(0, 1300),
        send(1200, &arm(8)),
    ];
    after_start(&calls, 1200)
}

fn a_link_call_moves_the_clock() -> Script {
    let calls = [
        up(1300),
        look(0, 1299),
        send(1299, &arm(8)),
        down(1299),
        down(1400),
        look(0, 1399),
        up(1399),
        up(1400),
        send(1400, &arm(9)),
    ];
    after_start(&calls, 1400)
}

/// Neither before the first link call nor after a link down.
fn no_message_without_a_link() -> Script {
    let [tile, link, message] = start();
    let calls = [
        tile,
        message.clone(),
        look(0, 0),
        down(0),
        message.clone(),
        link,
        message.clone(),
        down(1200),
        message,
        look(0, 1200),
    ];
    Script::of(&calls, 1200)
}

fn links_of_an_empty_tile() -> Script {
    let [tile, link, _] = start();
    let links = [down(0), up(5), up(6), down(7), down(8)];
    let looked = links.map(|call| [call, look(0, 9)]);
    Script::of(&[&[tile], looked.as_flattened(), &[link]].concat(), 1000)
}

/// Every way through three link calls, each followed by a message and a look, at most times within
/// the hold time.
fn three_link_calls() -> Vec<Script> {
    let of_kinds = |kinds: u64| {
        let calls = (1..=3).flat_map(|place: u8| {
            let clock = 1200 + 50 * u64::from(place);
            let link = if kinds >> place & 1 == 1 { up } else { down };
            let message = send(clock + 30, &arm(place));
            let looks = [clock + 20, clock + 40].map(|clock| look(0, clock));
            let [before, after] = looks;
            [link(clock), before, message, after]
        });
        after_start(&calls.collect::<Vec<Call>>(), 1400)
    };
    (0..16).step_by(2).map(of_kinds).collect()
}

#[cfg(test)]
mod tests {
    use super::{
        a_link_call_moves_the_clock, a_new_message_for_one_of_two,
        a_refused_link_call_ends_no_green, loose_cable, loose_cable_of_two_tiles,
        reconnect_after_a_link_down, reconnect_while_up, three_link_calls, Script,
    };
    use crate::vectors::scripts::calls::START;

    fn assert_brief(script: &Script, line: &str) {
        assert_eq!(script.brief(), format!("{START}, {line}"));
    }

    #[test]
    fn a_lost_link_ends_green() {
        let line = "green 100 7, accepted, grey 100 7, grey 101 7, refused 14, grey 102 7, \
                    grey 501 7 | grey 100 7";
        assert_brief(&loose_cable(), line);
        let line = "added 1, accepted, green 50 7, green 0 8, accepted, grey 50 7, grey 0 8 \
                    | grey 51 7, grey 1 8";
        assert_brief(&loose_cable_of_two_tiles(), line);
    }

    #[test]
    fn an_old_pose_stays_grey_on_a_new_link() {
        let line = "accepted, accepted, grey 200 7, grey 500 7, accepted, green 0 8 | green 500 8";
        assert_brief(&reconnect_after_a_link_down(), line);
        let line = "accepted, grey 0 7, accepted, green 0 7, accepted, accepted, grey 0 7 \
                    | grey 0 7";
        assert_brief(&reconnect_while_up(), line);
        let line = "added 1, accepted, accepted, accepted, grey 100 7, green 0 9 \
                    | grey 100 7, green 0 9";
        assert_brief(&a_new_message_for_one_of_two(), line);
    }

    #[test]
    fn a_refused_link_call_changes_nothing() {
        let line = "refused 15, green 0 7, refused 15, green 100 7, accepted | green 0 8";
        assert_brief(&a_refused_link_call_ends_no_green(), line);
    }

    #[test]
    fn link_calls_set_the_clock() {
        let line = "accepted, refused 15, refused 15, refused 15, accepted, refused 15, \
                    refused 15, accepted, accepted | green 0 9";
        assert_brief(&a_link_call_moves_the_clock(), line);
    }

    #[test]
    fn three_link_downs_and_three_link_ups() {
        let scripts = three_link_calls();
        let line = "accepted, grey 70 7, refused 14, grey 90 7, accepted, grey 120 7, refused 14, \
                    grey 140 7, accepted, grey 170 7, refused 14, grey 190 7 | grey 200 7";
        assert_brief(&scripts[0], line);
        let line = "accepted, grey 70 7, accepted, green 10 1, accepted, grey 40 1, accepted, \
                    green 10 2, accepted, grey 40 2, accepted, green 10 3 | green 20 3";
        assert_brief(&scripts[7], line);
    }
}
