//! Feeds made from a seed, of every kind that the rules tell apart.
//!
//! The kinds take turns. The feed with a given number depends on the seed and
//! that number alone, so a longer bundle begins with the shorter one. A kind's
//! first feed is of round 0, its next of round 1, and so on: what has to be gone
//! through one by one (cuts, lengths of notes, variants) goes by the round, the
//! rest by chance. The rules take turns too, and each kind meets each of them.
//!
//! Refusal 5 needs 1,000,000 accepted entries and is left out here.

mod bursts;
mod damaged;
mod draft;
mod keyed;
mod ordinary;
mod refused;
mod strayed;

use crate::chance::Chance;
use crate::rules::Rule;

/// A kind of feed: its name, and the feed of a round, for equal keys.
pub struct Kind {
    pub name: &'static str,
    make: fn(&mut Chance, u32) -> Vec<u8>,
    /// Whether it fills the waiting pairs exactly, so that under near keys the
    /// same entries must pair.
    exact: bool,
}

const fn kind(name: &'static str, make: fn(&mut Chance, u32) -> Vec<u8>) -> Kind {
    let exact = false;
    Kind { name, make, exact }
}

const fn exact(name: &'static str, make: fn(&mut Chance, u32) -> Vec<u8>) -> Kind {
    let exact = true;
    Kind { name, make, exact }
}

pub const KINDS: [Kind; 30] = [
    kind("the document's examples", ordinary::example),
    kind("short", ordinary::short),
    kind("sparse overlaps", ordinary::sparse),
    kind("dense overlaps", ordinary::dense),
    kind("few keys", ordinary::few_keys),
    kind("many keys", ordinary::many_keys),
    kind("touching intervals", ordinary::touching),
    kind("equal entries", ordinary::equal_entries),
    kind("long", ordinary::long),
    kind("notes of every length", ordinary::notes),
    kind("times 0 and 4294967295", ordinary::far_times),
    kind("marks run ahead", ordinary::marks_ahead),
    kind("early close", ordinary::early_close),
    kind("after both closes", refused::after_both_closes),
    exact("full area", bursts::full_area),
    exact("area freed and filled", bursts::area_freed),
    exact("full waiting", bursts::full_waiting),
    exact("waiting freed and filled", bursts::waiting_freed),
    kind("closed journal", refused::closed),
    kind("improper entry", refused::improper),
    kind("below the clock", refused::below_clock),
    exact("several refusals at once", refused::several),
    kind("wrong stream", damaged::stream),
    kind("wrong length", damaged::length),
    kind("wrong kind", damaged::kind),
    kind("the example cut", damaged::cut_example),
    kind("small feed cut", damaged::cut_small),
    kind("any feed cut", damaged::cut_anywhere),
    kind("one byte changed", damaged::one_byte_changed),
    kind("any bytes", damaged::any_bytes),
];

/// A feed, with the name of its kind and the rule that it is joined by.
pub struct Made {
    pub kind: &'static str,
    pub rule: Rule,
    pub feed: Vec<u8>,
}

/// The feeds of a seed.
pub fn feeds(seed: u64, count: u64) -> impl Iterator<Item = Made> {
    (0..count).map(move |number| made(seed, number))
}

fn made(seed: u64, number: u64) -> Made {
    let turn = (number % KINDS.len() as u64) as usize;
    let round = (number / KINDS.len() as u64) as u32;
    let kind = &KINDS[turn];
    let mut chance = Chance::of_feed(seed, number);
    let (rule, feed) = match (turn, round) {
        // The document's own, as they stand there.
        (0, 0) => (Rule::Equal, example_of_the_document()),
        (0, 1) => (Rule::Near(2), ordinary::example_11()),
        _ => {
            let feed = (kind.make)(&mut chance, round);
            let rule = keyed::rule_of(&mut chance, turn as u32, round);
            let feed = keyed::keyed(feed, rule, kind.exact, &mut chance);
            (rule, strayed::strayed(feed, rule, &mut chance))
        }
    };
    let kind = kind.name;
    Made { kind, rule, feed }
}

/// One feed of a seed, with so many records and both closes.
pub fn long_feed(seed: u64, count: u64) -> Vec<u8> {
    ordinary::of_records(&mut Chance::new(seed), count.min(1_000_000) as u32)
}

/// The input that document 01 gives for joinfeed.
pub fn example_of_the_document() -> Vec<u8> {
    ordinary::example_of_the_document()
}

#[cfg(test)]
mod tests {
    use super::*;
    use crate::joinfeed::{joinfeed, printed_by};

    #[test]
    fn a_long_feed_is_accepted_whole_and_depends_on_its_seed() {
        let printed = joinfeed(&long_feed(1, 5_000));
        let last = printed.lines().last().unwrap();
        assert!(last.starts_with("done 5002 "), "{last}");
        assert_eq!(long_feed(1, 5_000), long_feed(1, 5_000));
        assert_ne!(long_feed(1, 5_000), long_feed(2, 5_000));
    }

    #[test]
    fn the_documents_eleventh_example_is_among_the_feeds() {
        let is_example = |made: &Made| made.feed == ordinary::example_11();
        let example = feeds(1, 3000).find(is_example).unwrap();
        assert_eq!(example.rule, Rule::Near(2));
        let printed = "0 9 0 0 5 7 0 1\n0 9 1 2 35999 1 3 4\ndone 7 2\n";
        assert_eq!(printed_by(example.rule, &example.feed), printed);
    }
}
