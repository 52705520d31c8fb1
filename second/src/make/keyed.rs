//! The rule that a made feed is joined by, and keys on which that rule decides.

use crate::chance::Chance;
use crate::records::{reading, writing, Reading, Record};
use crate::rules::{Entry, Rule, TURN};

/// No two keys on the circle are farther apart.
const HALF_TURN: u32 = TURN / 2;

/// 8,999 is the largest that leaves room for two stretches of keys that are not
/// near each other. From half a turn on all keys on the circle are near.
const WIDTHS: [u32; 13] = [
    0,
    1,
    2,
    3,
    5,
    8,
    100,
    8_999,
    HALF_TURN - 1,
    HALF_TURN,
    TURN - 1,
    TURN,
    u32::MAX,
];

/// Of six feeds three are joined by equal keys, two by near ones and one by every
/// couple. The turns shift with every tenth round, so that the variants of a
/// kind, which go by the round, meet each rule too.
pub fn rule_of(chance: &mut Chance, kind: u32, round: u32) -> Rule {
    match (kind + round + round / 10) % 6 {
        1 | 4 => Rule::Near(chance.pick(&WIDTHS)),
        2 => Rule::Every,
        _ => Rule::Equal,
    }
}

/// A feed made for equal keys, with keys for another rule in their place as far
/// as its records can be read.
pub fn keyed(feed: Vec<u8>, rule: Rule, exact: bool, chance: &mut Chance) -> Vec<u8> {
    match rule {
        Rule::Equal => feed,
        Rule::Near(width) => {
            let mut keys = NearKeys::about(width, exact, chance);
            with_keys(feed, |key| keys.key_for(key, chance))
        }
        Rule::Every => with_keys(feed, |key| {
            let any = chance.draw() as u32;
            chance.pick(&[key, 0, u32::MAX, any])
        }),
    }
}

pub fn with_keys(mut feed: Vec<u8>, mut key_for: impl FnMut(u32) -> u32) -> Vec<u8> {
    let mut place = 0;
    while let Reading::Record(record, next) = reading(&feed, place) {
        if let Record::Entry(stream, entry) = record {
            let key = key_for(entry.key);
            let bytes = writing(&Record::Entry(stream, Entry { key, ..entry }));
            feed[place..next].copy_from_slice(&bytes.expect("an entry is written"));
        }
        place = next;
    }
    feed
}

/// Keys on the circle that lie within a width of each other, at it and just
/// beyond it, often across the seam, where 35,999 and 0 are neighbours. Each key
/// of the feed gets a stretch of them.
struct NearKeys {
    width: u32,
    /// Where the first stretch begins, and how far from one to the next.
    first: u64,
    step: u64,
    /// Whether all keys of a stretch are near each other.
    exact: bool,
    /// The keys of the feed so far.
    replaced: Vec<u32>,
}

impl NearKeys {
    /// An exact feed has the same pairs as by equal keys, unless the width leaves
    /// no room for stretches that are not near each other.
    fn about(width: u32, exact: bool, chance: &mut Chance) -> NearKeys {
        let wide = u64::from(width);
        let apart = 2 * wide + 1;
        let any = chance.pick(&[apart, wide + 1, wide, HALF_TURN.into()]);
        // A stretch that begins at most a width before the seam lies across it.
        let across = TURN - chance.between(1, width.max(1)) % TURN;
        let first = chance.pick(&[0, 5, HALF_TURN, TURN - 1, across, across]);
        NearKeys {
            width,
            first: first.into(),
            step: if exact { apart } else { any },
            exact,
            replaced: Vec::new(),
        }
    }

    fn key_for(&mut self, key: u32, chance: &mut Chance) -> u32 {
        let number = self.stretch_of(key) as u64;
        let within = u64::from(chance.between(0, self.width));
        let at = u64::from(self.width);
        let beyond = if self.exact { at } else { at + 1 };
        let offset = chance.pick(&[0, 0, within, at, beyond]);
        let near = self.first + number * self.step + offset;
        (near % u64::from(TURN)) as u32
    }

    fn stretch_of(&mut self, key: u32) -> usize {
        let known = self.replaced.iter().position(|known| *known == key);
        known.unwrap_or_else(|| {
            self.replaced.push(key);
            self.replaced.len() - 1
        })
    }
}

#[cfg(test)]
mod tests {
    use super::*;

    #[test]
    fn exact_keys_are_near_where_those_of_the_feed_are_equal() {
        let mut chance = Chance::new(1);
        // Two stretches have room.
        for width in WIDTHS.into_iter().filter(|width| *width <= 8_999) {
            for _ in 0..20 {
                let mut keys = NearKeys::about(width, true, &mut chance);
                let stretches = [1, 2].map(|key| [(); 20].map(|()| keys.key_for(key, &mut chance)));
                for (a, b) in [(0, 0), (0, 1), (1, 0), (1, 1)] {
                    for a_key in stretches[a] {
                        for b_key in stretches[b] {
                            assert_eq!(Rule::Near(width).holds(a_key, b_key), a == b);
                        }
                    }
                }
            }
        }
    }
}
