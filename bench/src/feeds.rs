//! The feeds that are measured: four kinds, each of any number of records, and
//! every one accepted to its end.

const A: u16 = 0;
const B: u16 = 1;

/// The last instant that an entry can end at.
const LAST: u32 = u32::MAX;

const NOTE: &[u8] = b"lamp 2 warm, dome at 19 C";

pub struct Kind {
    pub name: &'static str,
    /// In a few words.
    pub says: &'static str,
    make: fn(&mut Feed),
}

pub const KINDS: [Kind; 4] = [
    Kind {
        name: "pace",
        says: "both journals keep pace, a pair a record",
        make: pace,
    },
    Kind {
        name: "full",
        says: "both areas stay full, no pairs",
        make: full,
    },
    Kind {
        name: "queue",
        says: "250 to 256 pairs wait all the time",
        make: queue,
    },
    Kind {
        name: "silent",
        says: "A is silent, B goes on alone",
        make: silent,
    },
];

impl Kind {
    /// The feed with so many records, of which the last two close the journals.
    pub fn feed(&self, records: u32) -> Vec<u8> {
        let mut feed = Feed {
            bytes: Vec::new(),
            left: records - 2,
        };
        (self.make)(&mut feed);
        feed.left = 2;
        feed.close(A);
        feed.close(B);
        feed.bytes
    }
}

/// Both journals keep pace: each entry overlaps some seven of the other journal,
/// of which a third has its key.
fn pace(feed: &mut Feed) {
    let mut chance = Chance { state: 1 };
    let mut time = 0;
    while feed.goes_on() {
        for _ in 0..4 {
            for stream in [A, B] {
                let (end, key) = (time + chance.between(25, 50), chance.between(1, 3));
                feed.entry(stream, time, end, key, chance.between(0, 999_999));
                time += 5;
            }
        }
        feed.mark(A, time);
        feed.note();
    }
}

/// Both areas stay full: at each time one entry of each journal ends and one
/// comes. No pairs, as the keys of A are odd and those of B even.
fn full(feed: &mut Feed) {
    for end in 1..=64 {
        feed.entry(A, 0, end, 1, end);
        feed.entry(B, 0, end, 2, end);
    }
    let mut time = 0;
    while feed.goes_on() {
        time += 1;
        feed.mark(A, time);
        feed.entry(B, time, time + 64, 2, time);
        feed.note();
        feed.entry(A, time, time + 64, 1, time);
    }
}

/// The queue stays full: B is 63 ahead, so what pairs with it waits that long.
/// An entry of A pairs with six of B, spread over the queue, and makes it 256.
fn queue(feed: &mut Feed) {
    let lead = 63;
    let key = |time: u32| time % 12;
    let brief = |feed: &mut Feed, time: u32| feed.entry(B, time, time + 1, key(time), time);
    for time in 0..lead {
        brief(feed, time);
    }
    let mut time = 0;
    while feed.goes_on() {
        feed.entry(A, time, time + 84, key(time), time);
        brief(feed, time + lead);
        feed.mark(A, time);
        feed.note();
        time += 1;
    }
}

/// A fills its area, marks far ahead and is silent. No entry of B is wanted; one
/// in two meets the key of an entry that A holds.
fn silent(feed: &mut Feed) {
    for key in 0..64 {
        feed.entry(A, 0, LAST, key, 1_000 + key);
    }
    feed.mark(A, LAST - 1);
    let mut chance = Chance { state: 2 };
    let mut time = 0;
    while feed.goes_on() {
        feed.entry(B, time, time + 3, chance.between(0, 127), time);
        feed.note();
        feed.entry(B, time + 1, time + 5, chance.between(0, 127), time);
        feed.mark(B, time + 2);
        time += 2;
    }
}

/// A feed that is being written. It takes no record when none is left to write.
struct Feed {
    bytes: Vec<u8>,
    left: u32,
}

impl Feed {
    fn goes_on(&self) -> bool {
        self.left > 0
    }

    fn entry(&mut self, stream: u16, start: u32, end: u32, key: u32, value: u32) {
        self.record(
            1,
            &[
                &half(stream),
                &word(start),
                &word(end),
                &word(key),
                &word(value),
            ],
        );
    }

    fn mark(&mut self, stream: u16, time: u32) {
        self.record(2, &[&half(stream), &word(time)]);
    }

    fn close(&mut self, stream: u16) {
        self.record(3, &[&half(stream)]);
    }

    fn note(&mut self) {
        self.record(4, &[NOTE]);
    }

    fn record(&mut self, kind: u16, fields: &[&[u8]]) {
        if self.left == 0 {
            return;
        }
        self.left -= 1;
        let fields = fields.concat();
        self.bytes.extend(half(2 + fields.len() as u16));
        self.bytes.extend(half(kind));
        self.bytes.extend(fields);
    }
}

fn half(number: u16) -> [u8; 2] {
    number.to_le_bytes()
}

fn word(number: u32) -> [u8; 4] {
    number.to_le_bytes()
}

/// A small seeded generator (splitmix64).
struct Chance {
    state: u64,
}

impl Chance {
    /// A number from `least` to `most`, both included.
    fn between(&mut self, least: u32, most: u32) -> u32 {
        self.state = self.state.wrapping_add(0x9E37_79B9_7F4A_7C15);
        let mut mixed = self.state;
        mixed = (mixed ^ (mixed >> 30)).wrapping_mul(0xBF58_476D_1CE4_E5B9);
        mixed = (mixed ^ (mixed >> 27)).wrapping_mul(0x94D0_49BB_1331_11EB);
        mixed ^= mixed >> 31;
        least + (mixed % u64::from(most - least + 1)) as u32
    }
}

/// The feeds judged by the second program's reading of the rules.
#[cfg(test)]
mod tests {
    use super::*;
    use second::records::{reading, Reading, Record};
    use second::rules::{Join, Rule, Stream, Take};

    /// What a feed makes of a fresh join.
    #[derive(Default)]
    struct Course {
        records: u32,
        taken: u32,
        entries: [u32; 2],
        /// After each record, before anything is taken: what is held in A and in
        /// B, and what waits.
        sizes: Vec<[usize; 3]>,
    }

    impl Course {
        /// The least and the greatest of a size once the feed is under way.
        fn range(&self, size: usize) -> (usize, usize) {
            let under_way = self.sizes[500..self.sizes.len() - 2].iter();
            let sizes: Vec<usize> = under_way.map(|sizes| sizes[size]).collect();
            let least = sizes.iter().min().copied().unwrap();
            (least, sizes.iter().max().copied().unwrap())
        }
    }

    fn course(name: &str, records: u32) -> Course {
        let kind = KINDS.iter().find(|kind| kind.name == name).unwrap();
        let feed = kind.feed(records);
        let mut join = Join::fresh(Rule::Equal);
        let mut course = Course::default();
        let mut place = 0;
        while let Reading::Record(record, next) = reading(&feed, place) {
            let accepted = match record {
                Record::Entry(stream, entry) => {
                    course.entries[stream as usize] += 1;
                    join.entry(stream, entry)
                }
                Record::Mark(stream, time) => join.mark(stream, time),
                Record::Close(stream) => join.close(stream),
                Record::Note(_) => Ok(()),
            };
            assert_eq!(accepted, Ok(()), "{name}, record {}", course.records);
            let held = [Stream::A, Stream::B].map(|stream| join.area(stream).len());
            course.sizes.push([held[0], held[1], join.waiting().len()]);
            while let Take::Pair(_) = join.take() {
                course.taken += 1;
            }
            course.records += 1;
            place = next;
        }
        assert_eq!(place, feed.len(), "{name} is read to its end");
        assert_eq!(join.take(), Take::Finished, "{name} ends with done");
        assert_eq!(course.records, records);
        course
    }

    #[test]
    fn pace_has_a_pair_or_so_for_each_record() {
        let course = course("pace", 3000);
        assert!((2500..3500).contains(&course.taken), "{}", course.taken);
    }

    #[test]
    fn full_keeps_both_areas_full_and_has_no_pairs() {
        let course = course("full", 3000);
        assert_eq!(course.range(0), (63, 64));
        assert_eq!(course.range(1), (63, 64));
        assert_eq!(course.taken, 0);
    }

    #[test]
    fn queue_keeps_the_queue_full() {
        let course = course("queue", 3000);
        assert_eq!(course.range(2), (250, 256));
    }

    #[test]
    fn silent_holds_a_full_area_against_a_journal_that_goes_on() {
        let course = course("silent", 3000);
        assert_eq!(course.range(0), (64, 64));
        assert_eq!(course.range(1), (0, 0));
        assert_eq!(course.entries[0], 64);
        let of_b = course.entries[1] as f64;
        assert!((0.4..0.6).contains(&(course.taken as f64 / of_b)));
    }

    /// What is true of 3,000 records stays true, as each kind goes in rounds; the
    /// one limit that a longer feed can meet is that of accepted entries.
    #[test]
    fn two_million_records_stay_below_a_million_entries_of_a_journal() {
        for kind in &KINDS {
            let feed = kind.feed(2_000_000);
            let mut entries = [0; 2];
            let mut records = 0;
            let mut place = 0;
            while let Reading::Record(record, next) = reading(&feed, place) {
                if let Record::Entry(stream, _) = record {
                    entries[stream as usize] += 1;
                }
                records += 1;
                place = next;
            }
            assert_eq!(records, 2_000_000, "{}", kind.name);
            assert!(entries.iter().all(|count| *count <= 1_000_000));
        }
    }
}
