//! Near feeds with a key off the circle.
//!
//! It stands in the entry that the join refuses anyway, so that 13 meets another
//! check; where nothing is refused, in any entry. A feed that cannot be read to
//! its end keeps its keys.

use super::draft::STREAMS;
use super::keyed::with_keys;
use crate::chance::Chance;
use crate::joinfeed::{printed_watched, READ_LIMIT};
use crate::rules::{Rule, TURN};

/// The feed as it is, or under near at times with one key off the circle.
pub fn strayed(feed: Vec<u8>, rule: Rule, chance: &mut Chance) -> Vec<u8> {
    let Rule::Near(_) = rule else {
        return feed;
    };
    let mut accepted = 0;
    let printed = printed_watched(rule, &feed, READ_LIMIT, |join| {
        let entries = STREAMS.map(|stream| join.accepted(stream).len());
        accepted = entries.iter().sum();
    });
    let last_line = printed.lines().last().unwrap_or_default();
    let words: Vec<&str> = last_line.split(' ').collect();
    let (times, entry) = match words[..] {
        // The entry after those accepted. If a mark or a close is refused, it is
        // not read; if a reading is, there is none. 2, 3 and 4 come before 13.
        ["refused", "2" | "3" | "4", _] => (2, accepted),
        ["refused", ..] => (4, accepted),
        _ if accepted == 0 => return feed,
        // Seldom, as most feeds are to be joined to their end.
        _ => (8, chance.below(accepted as u32) as usize),
    };
    if chance.one_in(times) {
        with_key_off_circle(feed, entry, chance)
    } else {
        feed
    }
}

/// The feed with such a key in the entry of this number, counted from 0.
fn with_key_off_circle(feed: Vec<u8>, entry: usize, chance: &mut Chance) -> Vec<u8> {
    let any = chance.between(TURN, u32::MAX);
    let off_circle = [
        TURN,
        TURN,
        TURN + 1,
        65_536,
        u32::MAX - 1,
        u32::MAX,
        u32::MAX,
        any,
    ];
    let off_circle = chance.pick(&off_circle);
    let mut numbers = 0..;
    with_keys(feed, |key| match numbers.next() {
        Some(number) if number == entry => off_circle,
        _ => key,
    })
}
