//! What the text of an evening tells: its entries, marks and closes, and the
//! pairs that are printed of it.

use second::joinfeed::joinfeed;
use second::records::{reading, Reading, Record};
use second::rules::{Entry, Pair, Stream};
use second::text::feed_of_text;

/// A journal's entries stand in the order of their ordinals.
#[derive(Default)]
pub struct Evening {
    pub notes: Vec<String>,
    pub entries: [Vec<Entry>; 2],
    pub marks: Vec<(Stream, u32)>,
    pub closes: Vec<Stream>,
    pub pairs: Vec<Pair>,
}

impl Evening {
    pub fn told(text: &[u8]) -> Result<Evening, String> {
        let feed = feed_of_text(text)?;
        let mut evening = Evening::default();
        let mut place = 0;
        while let Reading::Record(record, next) = reading(&feed, place) {
            evening.hear(record);
            place = next;
        }
        let printed = joinfeed(&feed);
        evening.pairs = printed.lines().filter_map(pair_in).collect();
        match printed.lines().last() {
            Some(last) if last.starts_with("done") => Ok(evening),
            last => Err(format!(
                "it ends with `{}`; an evening is drawn when it ends with `done`",
                last.unwrap_or_default()
            )),
        }
    }

    fn hear(&mut self, record: Record) {
        match record {
            Record::Entry(stream, entry) => self.entries[stream as usize].push(entry),
            Record::Mark(stream, time) => self.marks.push((stream, time)),
            Record::Close(stream) => self.closes.push(stream),
            Record::Note(text) => self.notes.push(String::from_utf8_lossy(&text).into()),
        }
    }

    /// The keys of both journals, ascending.
    pub fn keys(&self) -> Vec<u32> {
        let mut keys: Vec<u32> = self
            .entries
            .iter()
            .flatten()
            .map(|entry| entry.key)
            .collect();
        keys.sort_unstable();
        keys.dedup();
        keys
    }

    pub fn last_end(&self) -> u32 {
        let ends = self.entries.iter().flatten().map(|entry| entry.end);
        ends.max().unwrap_or_default()
    }
}

/// The pair of a printed line: start, end, A ordinal, B ordinal, A key, B key,
/// A value, B value.
fn pair_in(line: &str) -> Option<Pair> {
    let numbers: Result<Vec<u32>, _> = line.split(' ').map(str::parse).collect();
    let [start, end, a_ordinal, b_ordinal, a_key, b_key, a_value, b_value] =
        numbers.ok()?.try_into().ok()?;
    Some(Pair {
        start,
        end,
        a_ordinal,
        b_ordinal,
        a_key,
        b_key,
        a_value,
        b_value,
    })
}

#[cfg(test)]
mod tests {
    use super::*;
    use crate::EVENING;

    #[test]
    fn the_evening_has_its_entries_and_pairs() {
        let evening = Evening::told(EVENING).unwrap();
        assert_eq!(evening.entries.each_ref().map(Vec::len), [3, 6]);
        assert_eq!(evening.marks, [(Stream::A, 6000), (Stream::B, 9000)]);
        assert_eq!(evening.closes, [Stream::A, Stream::B]);
        assert_eq!(evening.keys(), [1, 2, 3]);
        let lines = joinfeed(&feed_of_text(EVENING).unwrap());
        assert_eq!(evening.pairs.len(), lines.lines().count() - 1);
        for pair in evening.pairs {
            let a = evening.entries[0][pair.a_ordinal as usize];
            let b = evening.entries[1][pair.b_ordinal as usize];
            assert_eq!((pair.a_value, pair.b_value), (a.value, b.value));
            assert_eq!(pair.start, a.start.max(b.start));
            assert_eq!(pair.end, a.end.min(b.end));
        }
    }

    #[test]
    fn an_evening_that_is_not_joined_to_its_end_is_told() {
        let told = |text| Evening::told(text).err().unwrap_or_default();
        assert!(told(b"close A").contains("`open 1 0`"));
        assert!(told(b"entry A 5 5 1 1").contains("`refused 3 0`"));
        assert!(told(b"open").starts_with("line 1: "));
    }
}
