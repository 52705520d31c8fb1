//! What joinfeed must print of a feed, and what it would print by another rule.

use crate::records::{reading, Reading, Record};
use crate::refusal::Refusal;
use crate::rules::{Join, Pair, Rule, Take};

/// Bytes beyond the first 4,294,967,295 are not read, and the feed counts as
/// ending there.
pub const READ_LIMIT: u64 = 4_294_967_295;

/// All that joinfeed prints of a feed: it joins by equal keys.
pub fn joinfeed(feed: &[u8]) -> String {
    printed_by(Rule::Equal, feed)
}

/// The same by any rule.
pub fn printed_by(rule: Rule, feed: &[u8]) -> String {
    printed_watched(rule, feed, READ_LIMIT, |_| ())
}

/// The same with a read limit of one's own, showing the join to `watch` after
/// each accepted record, before its ready pairs are taken.
pub fn printed_watched(
    rule: Rule,
    feed: &[u8],
    read_limit: u64,
    mut watch: impl FnMut(&Join),
) -> String {
    let read = (feed.len() as u64).min(read_limit) as usize;
    let feed = &feed[..read];
    let mut join = Join::fresh(rule);
    let mut printed = String::new();
    let mut records = 0u64;
    let mut pairs = 0u64;
    let mut place = 0;
    loop {
        let refused = match reading(feed, place) {
            Reading::End => {
                let word = if join.both_closed() { "done" } else { "open" };
                printed.push_str(&format!("{word} {records} {pairs}\n"));
                return printed;
            }
            Reading::Refused(refusal, _) => Some(refusal),
            Reading::Record(record, next) => {
                place = next;
                accept(&mut join, &record).err()
            }
        };
        if let Some(refusal) = refused {
            printed.push_str(&format!("refused {} {records}\n", refusal.number()));
            return printed;
        }
        records += 1;
        watch(&join);
        while let Take::Pair(pair) = join.take() {
            printed.push_str(&line(&pair));
            pairs += 1;
        }
    }
}

fn accept(join: &mut Join, record: &Record) -> Result<(), Refusal> {
    match record {
        Record::Entry(stream, entry) => join.entry(*stream, *entry),
        Record::Mark(stream, time) => join.mark(*stream, *time),
        Record::Close(stream) => join.close(*stream),
        Record::Note(_) => Ok(()), // notes ride along and affect nothing
    }
}

/// Start, end, A ordinal, B ordinal, A key, B key, A value, B value, one space
/// apart.
pub fn line(pair: &Pair) -> String {
    format!(
        "{} {} {} {} {} {} {} {}\n",
        pair.start,
        pair.end,
        pair.a_ordinal,
        pair.b_ordinal,
        pair.a_key,
        pair.b_key,
        pair.a_value,
        pair.b_value
    )
}

#[cfg(test)]
mod tests {
    use super::*;
    use crate::make::{example_of_the_document, feeds, Made};
    use crate::rules::{pair_of, Numbered, Stream};
    use crate::text::feed_of_text;

    fn printed_of(text: &str) -> String {
        joinfeed(&feed_of_text(text.as_bytes()).unwrap())
    }

    const PRINTED_OF_THE_EXAMPLE: &str = "20 30 0 0 7 7 100 5\n\
                                          30 50 0 1 7 7 100 6\n\
                                          50 60 1 1 7 7 101 6\n\
                                          done 6 3\n";

    #[test]
    fn the_documents_example() {
        let feed = example_of_the_document();
        assert_eq!(joinfeed(&feed), PRINTED_OF_THE_EXAMPLE);
    }

    #[test]
    fn the_example_prints_the_same_however_its_journals_interleave() {
        let a = ["entry A 10 50 7 100", "entry A 50 70 7 101", "close A"];
        let b = ["entry B 20 30 7 5", "entry B 30 60 7 6", "close B"];
        let mut tried = 0;
        for choice in 0u32..64 {
            if choice.count_ones() != 3 {
                continue;
            }
            let (mut from_a, mut from_b) = (a.iter(), b.iter());
            let lines: Vec<&str> = (0..6)
                .map(|place| match choice >> place & 1 {
                    1 => *from_a.next().unwrap(),
                    _ => *from_b.next().unwrap(),
                })
                .collect();
            assert_eq!(printed_of(&lines.join("\n")), PRINTED_OF_THE_EXAMPLE);
            tried += 1;
        }
        assert_eq!(tried, 20);
    }

    #[test]
    fn last_lines() {
        assert_eq!(printed_of(""), "open 0 0\n");
        assert_eq!(printed_of("note\nnote x"), "open 2 0\n");
        assert_eq!(printed_of("close B"), "open 1 0\n");
        assert_eq!(printed_of("close B\nclose A"), "done 2 0\n");
        assert_eq!(printed_of("close B\nclose A\nnote"), "done 3 0\n");
        assert_eq!(printed_of("close B\nnote\nclose B"), "refused 2 2\n");
        assert_eq!(printed_of("note\nraw 08"), "refused 9 1\n");
        assert_eq!(printed_of("raw 00 00"), "refused 10 0\n");
        // A refused record hands out nothing, what was printed stays.
        assert_eq!(
            printed_of("entry A 1 9 1 5\nentry B 2 9 1 6\nclose A\nmark B 3\nmark B 2"),
            "2 9 0 0 1 1 5 6\nrefused 4 4\n"
        );
        // Waiting pairs of an open join are not printed.
        assert_eq!(
            printed_of("entry A 1 9 1 5\nentry B 1 9 1 6\nmark A 8"),
            "open 3 0\n"
        );
    }

    #[test]
    fn a_small_read_limit() {
        let feed = example_of_the_document();
        let printed_within = |limit| printed_watched(Rule::Equal, &feed, limit, |_| ());
        assert_eq!(printed_within(0), "open 0 0\n");
        assert_eq!(printed_within(1), "refused 9 0\n");
        assert_eq!(printed_within(21), "refused 9 0\n");
        assert_eq!(printed_within(22), "open 1 0\n");
        assert_eq!(printed_within(23), "refused 9 1\n");
        let cut_in_the_last_close = "20 30 0 0 7 7 100 5\nrefused 9 5\n";
        assert_eq!(printed_within(99), cut_in_the_last_close);
        assert_eq!(printed_within(100), PRINTED_OF_THE_EXAMPLE);
        assert_eq!(printed_within(101), PRINTED_OF_THE_EXAMPLE);
    }

    #[test]
    fn one_feed_by_each_rule() {
        let text = "entry A 0 9 5 1\nentry B 0 9 5 2\nentry B 0 9 7 3\nentry B 0 9 8 4\n\
                    close A\nclose B";
        let feed = feed_of_text(text.as_bytes()).unwrap();
        let equal = "0 9 0 0 5 5 1 2\n";
        let at_the_width = "0 9 0 1 5 7 1 3\n";
        let beyond = "0 9 0 2 5 8 1 4\n";
        assert_eq!(joinfeed(&feed), format!("{equal}done 6 1\n"));
        assert_eq!(
            printed_by(Rule::Near(2), &feed),
            format!("{equal}{at_the_width}done 6 2\n")
        );
        assert_eq!(
            printed_by(Rule::Every, &feed),
            format!("{equal}{at_the_width}{beyond}done 6 3\n")
        );
    }

    #[test]
    fn a_million_entries_and_one_more() {
        // With B closed no A entry is wanted, so none is held.
        let mut feed = feed_of_text(b"close B").unwrap();
        let entry = feed_of_text(b"entry A 0 1 1 1").unwrap();
        feed.extend(entry.repeat(1_000_000));
        assert_eq!(joinfeed(&feed), "open 1000001 0\n");
        feed.extend(entry);
        assert_eq!(joinfeed(&feed), "refused 5 1000001\n");
    }

    /// Without areas and without a queue: of all couples of accepted entries,
    /// sorted, exactly those are printed whose start is below the clock of every
    /// journal that is open at the end.
    #[test]
    fn made_feeds_print_the_ready_stretch_of_the_plain_list() {
        let mut compared = 0;
        for Made { kind, rule, feed } in feeds(11, 1500) {
            let mut last = Join::fresh(rule);
            let printed = printed_watched(rule, &feed, READ_LIMIT, |join| last = join.clone());
            let numbered = |stream| -> Vec<Numbered> {
                (0..).zip(last.accepted(stream).iter().copied()).collect()
            };
            let (a, b) = (numbered(Stream::A), numbered(Stream::B));
            let mut plain_list: Vec<Pair> = a
                .iter()
                .flat_map(|a| b.iter().filter_map(|b| pair_of(rule, *a, *b)))
                .collect();
            plain_list.sort_by_key(Pair::order);
            let ready = plain_list.iter().filter(|pair| last.is_ready(pair)).count();
            let expected: String = plain_list[..ready].iter().map(line).collect();
            let (lines, last_line) = match printed.trim_end().rfind('\n') {
                Some(end) => printed.split_at(end + 1),
                None => ("", printed.as_str()),
            };
            assert_eq!(lines, expected, "a feed of kind {kind}, {rule:?}");
            if last_line.starts_with("done") {
                assert_eq!(ready, plain_list.len(), "a feed of kind {kind}, {rule:?}");
                assert!(last_line.ends_with(&format!(" {ready}\n")));
            }
            compared += ready;
        }
        assert!(compared > 5000, "{compared} pairs compared");
    }
}
