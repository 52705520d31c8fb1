//! How many of the feeds that `make` writes get which last line, by their rules,
//! and how many reach the limits.

use crate::joinfeed::{printed_watched, READ_LIMIT};
use crate::make::{feeds, Made};
use crate::rules::{Rule, Stream, HELD_LIMIT, WAITING_LIMIT};
use std::collections::BTreeMap;

/// The last lines that a made feed can get, without their counts.
pub const LAST_LINES: [&str; 12] = [
    "done",
    "open",
    "refused 1",
    "refused 2",
    "refused 3",
    "refused 4",
    "refused 6",
    "refused 7",
    "refused 9",
    "refused 10",
    "refused 11",
    "refused 13",
];

/// The counts of some feeds.
#[derive(Clone, Default)]
pub struct Counts {
    pub feeds: usize,
    pub by_last_line: [usize; LAST_LINES.len()],
    pub pairs: usize,
    /// Feeds in which an area holds 64 at some time.
    pub area_full: usize,
    /// Feeds in which 256 pairs wait at some time.
    pub waiting_full: usize,
}

impl Counts {
    fn add(&mut self, Made { rule, feed, .. }: &Made) {
        let (mut area_full, mut waiting_full) = (false, false);
        let printed = printed_watched(*rule, feed, READ_LIMIT, |join| {
            let full = |stream| join.area(stream).len() == HELD_LIMIT;
            area_full |= full(Stream::A) || full(Stream::B);
            waiting_full |= join.waiting().len() == WAITING_LIMIT;
        });
        let last_line = without_counts(printed.lines().last().unwrap_or_default());
        let row = LAST_LINES
            .iter()
            .position(|line| *line == last_line)
            .expect("a made feed gets a known last line");
        self.feeds += 1;
        self.by_last_line[row] += 1;
        self.pairs += printed.lines().count() - 1;
        self.area_full += usize::from(area_full);
        self.waiting_full += usize::from(waiting_full);
    }

    fn include(&mut self, other: &Counts) {
        self.feeds += other.feeds;
        for (sum, count) in self.by_last_line.iter_mut().zip(other.by_last_line) {
            *sum += count;
        }
        self.pairs += other.pairs;
        self.area_full += other.area_full;
        self.waiting_full += other.waiting_full;
    }
}

/// A last line as `done`, `open`, or `refused` with its number.
fn without_counts(last_line: &str) -> &str {
    let counts = if last_line.starts_with("refused") {
        1
    } else {
        2
    };
    last_line
        .rsplitn(counts + 1, ' ')
        .last()
        .unwrap_or_default()
}

fn name_of(rule: Rule) -> &'static str {
    match rule {
        Rule::Equal => "equal",
        Rule::Near(_) => "near",
        Rule::Every => "every",
    }
}

/// The counts of a bundle, for each name that is given to its feeds.
pub fn counts(
    seed: u64,
    count: u64,
    name_of: impl Fn(&Made) -> &'static str,
) -> BTreeMap<&'static str, Counts> {
    let mut counts: BTreeMap<&str, Counts> = BTreeMap::new();
    for made in feeds(seed, count) {
        counts.entry(name_of(&made)).or_default().add(&made);
    }
    counts
}

pub fn sum<'a>(counts: impl IntoIterator<Item = &'a Counts>) -> Counts {
    let mut sum = Counts::default();
    counts.into_iter().for_each(|counts| sum.include(counts));
    sum
}

/// The counts by last line and by rule, as a table.
pub fn table(seed: u64, count: u64) -> String {
    let counts = counts(seed, count, |made| name_of(made.rule));
    let of_rule = |name| counts.get(name).cloned().unwrap_or_default();
    let rules = ["equal", "near", "every"].map(of_rule);
    let [equal, near, every] = &rules;
    let row = |name: &str, count: &dyn Fn(&Counts) -> usize| {
        let cells = [equal, near, every, &sum(&rules)].map(count);
        table_line(name, &cells)
    };
    let mut table = table_line("last line", &["equal", "near", "every", "all"]);
    table += "|------------------|-------:|-------:|-------:|-------:|\n";
    for (number, line) in LAST_LINES.iter().enumerate() {
        table += &row(line, &|counts| counts.by_last_line[number]);
    }
    table += &row("feeds", &|counts| counts.feeds);
    table += &row("pairs printed", &|counts| counts.pairs);
    table += &row("with 64 held", &|counts| counts.area_full);
    table += &row("with 256 waiting", &|counts| counts.waiting_full);
    table += "refused 5 needs 1000000 accepted entries and is left out\n";
    table += &format!(
        "{} feeds: {} joined by equal keys, {} by near keys, {} by every couple\n",
        sum(&rules).feeds,
        equal.feeds,
        near.feeds,
        every.feeds
    );
    table
}

fn table_line(name: &str, cells: &[impl std::fmt::Display; 4]) -> String {
    let [equal, near, every, all] = cells;
    format!("| {name:16} | {equal:>6} | {near:>6} | {every:>6} | {all:>6} |\n")
}

#[cfg(test)]
mod tests {
    use super::*;
    use crate::bundle::bundle_of;
    use crate::make::KINDS;
    use crate::records::{reading, Reading, Record};
    use crate::rules::{distance, Entry, Join, Take, TURN};
    use std::collections::BTreeSet;

    /// How many of the counted feeds get a last line.
    fn with_line(counts: &Counts, line: &str) -> usize {
        let row = LAST_LINES.iter().position(|known| *known == line).unwrap();
        counts.by_last_line[row]
    }

    #[test]
    fn last_lines_without_their_counts() {
        assert_eq!(without_counts("done 6 3"), "done");
        assert_eq!(without_counts("open 0 0"), "open");
        assert_eq!(without_counts("refused 10 12"), "refused 10");
    }

    #[test]
    fn three_thousand_feeds_reach_every_last_line_and_both_limits() {
        let by_kind = counts(1, 3000, |made| made.kind);
        let all = sum(by_kind.values());
        assert_eq!(all.feeds, 3000);
        for line in LAST_LINES {
            let count = with_line(&all, line);
            assert!(count >= 40, "{line}: {count}");
        }
        assert!(all.area_full >= 100, "{}", all.area_full);
        assert!(all.waiting_full >= 50, "{}", all.waiting_full);
        assert!(all.pairs >= 10_000, "{}", all.pairs);
        for kind in &KINDS {
            assert_eq!(by_kind[kind.name].feeds, 100, "{}", kind.name);
        }
    }

    #[test]
    fn each_rule_reaches_every_last_line_and_both_limits() {
        let by_rule = counts(1, 3000, |made| name_of(made.rule));
        for (rule, feeds) in [("equal", 1500), ("near", 1000), ("every", 500)] {
            let counts = &by_rule[rule];
            assert!(
                counts.feeds.abs_diff(feeds) <= 50,
                "{rule}: {}",
                counts.feeds
            );
            for line in LAST_LINES {
                let count = with_line(counts, line);
                let is_right = match (line, rule) {
                    ("refused 13", "near") => count >= 40,
                    ("refused 13", _) => count == 0,
                    _ => count >= 5,
                };
                assert!(is_right, "{rule}, {line}: {count}");
            }
            // Most feeds are joined to their end.
            let whole = with_line(counts, "done") + with_line(counts, "open");
            assert!(whole * 5 >= counts.feeds * 2, "{rule}: {whole}");
            assert!(counts.area_full >= 20, "{rule}: {}", counts.area_full);
            assert!(counts.waiting_full >= 10, "{rule}: {}", counts.waiting_full);
        }
    }

    #[test]
    fn each_kind_meets_each_rule() {
        let mut met: BTreeMap<(&str, &str), usize> = BTreeMap::new();
        for Made { kind, rule, .. } in feeds(1, 3000) {
            *met.entry((kind, name_of(rule))).or_default() += 1;
        }
        assert_eq!(met.len(), 3 * KINDS.len());
        for (of, feeds) in met {
            assert!(feeds >= 10, "{of:?}: {feeds}");
        }
    }

    #[test]
    fn each_refusal_has_a_kind_that_is_made_for_it() {
        let by_kind = counts(2, 3000, |made| made.kind);
        let count_of = |name, line| with_line(&by_kind[name], line);
        assert_eq!(count_of("wrong stream", "refused 1"), 100);
        assert_eq!(count_of("closed journal", "refused 2"), 100);
        assert_eq!(count_of("improper entry", "refused 3"), 100);
        assert_eq!(count_of("below the clock", "refused 4"), 100);
        assert_eq!(count_of("wrong kind", "refused 11"), 100);
        assert!(count_of("full area", "refused 6") >= 50);
        assert!(count_of("area freed and filled", "refused 6") >= 30);
        assert!(count_of("full waiting", "refused 7") >= 40);
        assert!(count_of("waiting freed and filled", "refused 7") >= 10);
        assert!(count_of("wrong length", "refused 10") >= 80);
        assert!(count_of("the example cut", "refused 9") >= 90);
        // 13 comes in the place of some of 6 and 7.
        for (line, least) in [
            ("refused 2", 10),
            ("refused 3", 10),
            ("refused 4", 10),
            ("refused 6", 5),
            ("refused 7", 5),
            ("refused 13", 1),
        ] {
            let count = count_of("several refusals at once", line);
            assert!(count >= least, "{line}: {count}");
        }
        assert!(count_of("after both closes", "done") >= 30);
        assert!(count_of("after both closes", "refused 2") >= 30);
        let example = |line| count_of("the document's examples", line);
        assert_eq!(example("done") + example("refused 13"), 100);
    }

    /// The records of a feed as far as they can be read.
    fn records(feed: &[u8]) -> Vec<Record> {
        let mut records = Vec::new();
        let mut place = 0;
        while let Reading::Record(record, next) = reading(feed, place) {
            records.push(record);
            place = next;
        }
        records
    }

    /// A near feed with what comes of it.
    struct Near {
        width: u32,
        /// As it stands where the feed ends or is refused.
        join: Join,
        printed: String,
        /// The entry that is refused.
        refused: Option<(Stream, Entry)>,
    }

    fn near_feeds() -> impl Iterator<Item = Near> {
        feeds(1, 3000).filter_map(|made| match made.rule {
            Rule::Near(width) => Some(near(width, &made.feed)),
            _ => None,
        })
    }

    fn near(width: u32, feed: &[u8]) -> Near {
        let rule = Rule::Near(width);
        let mut join = Join::fresh(rule);
        let mut accepted = 0;
        let printed = printed_watched(rule, feed, READ_LIMIT, |after| {
            join = after.clone();
            accepted += 1;
        });
        while let Take::Pair(_) = join.take() {}
        let refused = match records(feed).get(accepted) {
            Some(Record::Entry(stream, entry)) => Some((*stream, *entry)),
            _ => None,
        };
        Near {
            width,
            join,
            printed,
            refused,
        }
    }

    /// Of the couples of accepted entries that hold at the same time, how many
    /// have keys at the width, and how many just beyond it.
    fn at_and_beyond(near: &Near) -> [usize; 2] {
        let mut counts = [0, 0];
        for a in near.join.accepted(Stream::A) {
            for b in near.join.accepted(Stream::B) {
                let beyond = distance(a.key, b.key).checked_sub(near.width);
                if let (true, Some(beyond @ 0..=1)) = (a.start < b.end && b.start < a.end, beyond) {
                    counts[beyond as usize] += 1;
                }
            }
        }
        counts
    }

    #[test]
    fn near_keys_stand_at_every_width_and_just_beyond_it() {
        let mut by_width: BTreeMap<u32, [usize; 2]> = BTreeMap::new();
        for near in near_feeds() {
            let counts = by_width.entry(near.width).or_default();
            for (sum, count) in counts.iter_mut().zip(at_and_beyond(&near)) {
                *sum += count;
            }
        }
        assert_eq!(by_width.len(), 13);
        for (width, [at, beyond]) in by_width {
            // No two keys are farther apart than half a turn.
            assert_eq!(at >= 100, width <= 18_000, "{at} at {width}");
            assert_eq!(beyond >= 50, width < 18_000, "{beyond} beyond {width}");
        }
    }

    #[test]
    fn near_feeds_have_the_keys_at_which_the_circle_decides() {
        let mut with_key: BTreeMap<u32, usize> = BTreeMap::new();
        for Near { join, refused, .. } in near_feeds() {
            let accepted = [Stream::A, Stream::B].map(|stream| join.accepted(stream));
            let refused = refused.iter().map(|(_, entry)| entry);
            let met = accepted.into_iter().flatten().chain(refused);
            let keys: BTreeSet<u32> = met.map(|entry| entry.key).collect();
            for key in keys {
                *with_key.entry(key).or_default() += 1;
            }
        }
        for key in [0, 18_000, 35_999, 36_000, u32::MAX] {
            assert!(with_key[&key] >= 20, "{key}: {}", with_key[&key]);
        }
        for key in [1, 17_999, 18_001, 35_998, 36_001, u32::MAX - 1] {
            assert!(with_key[&key] >= 5, "{key}: {}", with_key[&key]);
        }
    }

    #[test]
    fn many_near_feeds_print_pairs_across_the_seam() {
        let is_across = |line: &str| {
            let fields: Vec<u32> = line.split(' ').flat_map(str::parse).collect();
            match fields[..] {
                [_, _, _, _, a_key, b_key, _, _] => {
                    a_key.max(b_key) > 35_000 && a_key.min(b_key) < 1_000
                }
                _ => false, // the last line
            }
        };
        let feeds = near_feeds()
            .filter(|near| near.printed.lines().any(is_across))
            .count();
        assert!(feeds >= 100, "{feeds}");
    }

    #[test]
    fn a_key_off_the_circle_meets_the_other_checks_of_an_entry() {
        let mut by_line: BTreeMap<String, usize> = BTreeMap::new();
        let (mut area_full, mut waiting_full) = (0, 0);
        for near in near_feeds() {
            let Some((stream, entry)) = near.refused.filter(|(_, entry)| entry.key >= TURN) else {
                continue;
            };
            let line = without_counts(near.printed.lines().last().unwrap());
            *by_line.entry(line.to_string()).or_default() += 1;
            if line == "refused 13" {
                let join = near.join;
                let is_held = join.is_wanted(stream, &entry);
                area_full += usize::from(is_held && join.area(stream).len() == HELD_LIMIT);
                waiting_full += usize::from(join.waiting().len() == WAITING_LIMIT);
            }
        }
        // In the order of the text; 6 and 7 come after 13.
        let given: Vec<&str> = by_line.keys().map(String::as_str).collect();
        assert_eq!(given, ["refused 13", "refused 2", "refused 3", "refused 4"]);
        assert!(by_line.values().all(|count| *count >= 5), "{by_line:?}");
        assert!(area_full >= 5, "{area_full}");
        assert!(waiting_full >= 3, "{waiting_full}");
    }

    #[test]
    fn feeds_and_what_is_printed_of_them_are_short() {
        for Made { kind, rule, feed } in feeds(1, 3000) {
            let printed = printed_watched(rule, &feed, READ_LIMIT, |_| ());
            for size in [feed.len(), printed.len()] {
                assert!(size < 60_000, "{kind}, {rule:?}: {size}");
            }
        }
    }

    #[test]
    fn every_note_length_and_every_cut_is_made() {
        let mut lengths = [false; 65];
        let mut cuts = [false; 100];
        let mut small_cuts = BTreeSet::new();
        for Made { kind, feed, .. } in feeds(1, 3000) {
            for record in records(&feed) {
                if let Record::Note(text) = record {
                    lengths[text.len()] = true;
                }
            }
            match kind {
                "the example cut" => cuts[feed.len()] = true,
                "small feed cut" => {
                    small_cuts.insert(feed.len());
                }
                _ => (),
            }
        }
        assert_eq!(lengths, [true; 65]);
        assert_eq!(cuts, [true; 100]);
        assert_eq!(small_cuts, (0..47).collect());
    }

    #[test]
    fn a_bundle_is_small_and_made_anew_from_its_seed() {
        let made = |seed, count| -> Vec<u8> {
            let made: Vec<Made> = feeds(seed, count).collect();
            bundle_of(made.iter().map(|made| (made.rule, made.feed.as_slice())))
        };
        let bundle = made(1, 3000);
        assert!(bundle.len() < 2_000_000, "{}", bundle.len());
        assert_eq!(made(1, 3000), bundle);
        assert_eq!(made(1, 300), bundle[..made(1, 300).len()]);
        assert_ne!(made(2, 300), made(1, 300));
    }
}
