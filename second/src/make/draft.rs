//! A feed in the making, with what its maker must know to write records that
//! are accepted: each journal's clock and whether it is open.

use crate::chance::Chance;
use crate::records::{writing, Record};
use crate::rules::{Entry, Stream};

pub const STREAMS: [Stream; 2] = [Stream::A, Stream::B];

/// How the entries and marks of a feed come.
pub struct Habits {
    /// How far a journal's clock moves at most from one record to the next.
    pub step: u32,
    /// The shortest and the longest interval.
    pub lengths: (u32, u32),
    /// The keys that entries have.
    pub keys: Vec<u32>,
    /// Of 100 records, how many are marks.
    pub marks: u32,
    /// Of 100 records, how many are notes.
    pub notes: u32,
}

pub struct Draft {
    pub bytes: Vec<u8>,
    clocks: [u32; 2],
    open: [bool; 2],
}

impl Draft {
    pub fn new() -> Draft {
        Draft {
            bytes: Vec::new(),
            clocks: [0, 0],
            open: [true, true],
        }
    }

    pub fn clock(&self, stream: Stream) -> u32 {
        self.clocks[stream as usize]
    }

    pub fn is_open(&self, stream: Stream) -> bool {
        self.open[stream as usize]
    }

    pub fn record(&mut self, record: &Record) {
        match record {
            Record::Entry(stream, entry) => self.clocks[*stream as usize] = entry.start,
            Record::Mark(stream, time) => self.clocks[*stream as usize] = *time,
            Record::Close(stream) => self.open[*stream as usize] = false,
            Record::Note(_) => (),
        }
        let bytes = writing(record).expect("made notes have at most 64 bytes");
        self.bytes.extend(bytes);
    }

    pub fn entry(&mut self, stream: Stream, (start, end): (u32, u32), key: u32, value: u32) {
        let entry = Entry {
            start,
            end,
            key,
            value,
        };
        self.record(&Record::Entry(stream, entry));
    }

    pub fn mark(&mut self, stream: Stream, time: u32) {
        self.record(&Record::Mark(stream, time));
    }

    pub fn close(&mut self, stream: Stream) {
        self.record(&Record::Close(stream));
    }

    pub fn note(&mut self, text: &[u8]) {
        self.record(&Record::Note(text.to_vec()));
    }

    /// Some records of these habits for the journals that are open. They are
    /// accepted unless an area or the waiting pairs are full.
    pub fn records(&mut self, chance: &mut Chance, habits: &Habits, count: u32) {
        for _ in 0..count {
            let share = chance.below(100);
            let Some(stream) = self.next_stream(chance) else {
                return;
            };
            if share < habits.notes {
                let size = chance.below(9);
                self.note(&chance.bytes(size));
                continue;
            }
            let time = self
                .clock(stream)
                .saturating_add(chance.between(0, habits.step));
            let length = chance.between(habits.lengths.0, habits.lengths.1);
            let end = time.saturating_add(length);
            if share < habits.notes + habits.marks || time == end {
                self.mark(stream, time);
            } else {
                let value = chance.below(1000);
                self.entry(stream, (time, end), chance.pick(&habits.keys), value);
            }
        }
    }

    /// An open journal; of two, more often the one that is behind.
    fn next_stream(&self, chance: &mut Chance) -> Option<Stream> {
        match STREAMS.map(|stream| self.is_open(stream)) {
            [true, true] if chance.one_in(3) => Some(chance.pick(&STREAMS)),
            [true, true] if self.clocks[0] <= self.clocks[1] => Some(Stream::A),
            [_, true] => Some(Stream::B),
            [true, false] => Some(Stream::A),
            [false, false] => None,
        }
    }

    /// The feed, mostly with both journals closed, sometimes with one or none.
    pub fn ending(mut self, chance: &mut Chance) -> Vec<u8> {
        let closes = chance.pick(&[2, 2, 2, 2, 2, 1, 0]);
        let first = chance.pick(&STREAMS);
        for stream in [first, first.other()].into_iter().take(closes) {
            if self.is_open(stream) {
                self.close(stream);
            }
        }
        self.bytes
    }

    /// The feed, with both journals closed.
    pub fn closing(mut self, chance: &mut Chance) -> Vec<u8> {
        let first = chance.pick(&STREAMS);
        for stream in [first, first.other()] {
            if self.is_open(stream) {
                self.close(stream);
            }
        }
        self.bytes
    }
}
