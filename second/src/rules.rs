//! The join, sentence by sentence as document 01 states it, near keys as P2 of
//! document 02 does.
//!
//! Every accepted entry is kept for good. What an area holds is found afresh
//! each time it is asked for, and the waiting pairs are sorted after each entry.

use crate::refusal::Refusal;

/// 64 held entries an area.
pub const HELD_LIMIT: usize = 64;
/// 256 waiting pairs.
pub const WAITING_LIMIT: usize = 256;
/// 1,000,000 accepted entries a journal.
pub const ACCEPTED_LIMIT: usize = 1_000_000;
/// A whole turn: near keys are axis angles in hundredths of a degree.
pub const TURN: u32 = 36_000;

/// Journal A is stream 0, B is stream 1.
#[derive(Clone, Copy, Debug, PartialEq, Eq)]
pub enum Stream {
    A = 0,
    B = 1,
}

impl Stream {
    pub fn other(self) -> Stream {
        match self {
            Stream::A => Stream::B,
            Stream::B => Stream::A,
        }
    }
}

/// An entry has a start, an end, a key and a value.
#[derive(Clone, Copy, Debug, PartialEq, Eq)]
pub struct Entry {
    pub start: u32,
    pub end: u32,
    pub key: u32,
    pub value: u32,
}

impl Entry {
    /// It is proper when start < end.
    pub fn is_proper(&self) -> bool {
        self.start < self.end
    }
}

/// The pairing rule is one of three: equal keys; near keys with a width; every
/// couple.
#[derive(Clone, Copy, Debug, PartialEq, Eq)]
pub enum Rule {
    Equal,
    Near(u32),
    Every,
}

impl Rule {
    /// Under near a key of 36,000 or more pairs with nothing, and its entry is
    /// refused. The other rules take any key.
    pub fn allows(self, key: u32) -> bool {
        match self {
            Rule::Near(_) => key < TURN,
            Rule::Equal | Rule::Every => true,
        }
    }

    /// Near means that the distance of the keys is at most the width.
    pub fn holds(self, a_key: u32, b_key: u32) -> bool {
        match self {
            Rule::Equal => a_key == b_key,
            Rule::Near(width) => {
                self.allows(a_key) && self.allows(b_key) && distance(a_key, b_key) <= width
            }
            Rule::Every => true,
        }
    }
}

/// The distance of two keys below 36,000 is the smaller of the difference and
/// 36,000 less the difference.
pub fn distance(a_key: u32, b_key: u32) -> u32 {
    let difference = a_key.max(b_key) - a_key.min(b_key);
    difference.min(TURN - difference)
}

/// The pair carries the meeting, both ordinals, both keys, both values.
#[derive(Clone, Copy, Debug, PartialEq, Eq)]
pub struct Pair {
    pub start: u32,
    pub end: u32,
    pub a_ordinal: u32,
    pub b_ordinal: u32,
    pub a_key: u32,
    pub b_key: u32,
    pub a_value: u32,
    pub b_value: u32,
}

impl Pair {
    /// Ascending order of start, then A ordinal, then B ordinal.
    pub fn order(&self) -> (u32, u32, u32) {
        (self.start, self.a_ordinal, self.b_ordinal)
    }
}

/// An accepted entry with its ordinal: the number of entries of its journal
/// accepted before it.
pub type Numbered = (u32, Entry);

/// An A entry and a B entry pair when both are proper, their meeting is not
/// empty and the rule holds for their keys.
pub fn pair_of(rule: Rule, (a_ordinal, a): Numbered, (b_ordinal, b): Numbered) -> Option<Pair> {
    // The meeting starts at the larger start and ends at the smaller end.
    let start = a.start.max(b.start);
    let end = a.end.min(b.end);
    // It is empty when that start is not below that end.
    let meeting_is_empty = start >= end;
    if a.is_proper() && b.is_proper() && !meeting_is_empty && rule.holds(a.key, b.key) {
        Some(Pair {
            start,
            end,
            a_ordinal,
            b_ordinal,
            a_key: a.key,
            b_key: b.key,
            a_value: a.value,
            b_value: b.value,
        })
    } else {
        None
    }
}

/// Each journal is either open, with its clock, or closed.
#[derive(Clone, Copy, Debug, PartialEq, Eq)]
pub enum State {
    Open { clock: u32 },
    Closed,
}

#[derive(Clone, Debug, PartialEq, Eq)]
struct Journal {
    state: State,
    accepted: Vec<Entry>,
}

/// What a take answers.
#[derive(Clone, Copy, Debug, PartialEq, Eq)]
pub enum Take {
    Pair(Pair),
    Waiting,
    Finished,
}

#[derive(Clone, Debug, PartialEq, Eq)]
pub struct Join {
    rule: Rule,
    journals: [Journal; 2],
    waiting: Vec<Pair>,
}

impl Join {
    /// The rule is chosen when the join is made and never changes. A fresh clock
    /// is 0.
    pub fn fresh(rule: Rule) -> Join {
        let journal = Journal {
            state: State::Open { clock: 0 },
            accepted: Vec::new(),
        };
        Join {
            rule,
            journals: [journal.clone(), journal],
            waiting: Vec::new(),
        }
    }

    fn journal(&self, stream: Stream) -> &Journal {
        &self.journals[stream as usize]
    }

    fn journal_mut(&mut self, stream: Stream) -> &mut Journal {
        &mut self.journals[stream as usize]
    }

    pub fn state(&self, stream: Stream) -> State {
        self.journal(stream).state
    }

    /// The entries of a journal accepted so far, in ordinal order.
    pub fn accepted(&self, stream: Stream) -> &[Entry] {
        &self.journal(stream).accepted
    }

    pub fn both_closed(&self) -> bool {
        self.state(Stream::A) == State::Closed && self.state(Stream::B) == State::Closed
    }

    /// An entry is wanted while the other journal is open and the entry's end
    /// is above the other journal's clock.
    pub fn is_wanted(&self, stream: Stream, entry: &Entry) -> bool {
        match self.state(stream.other()) {
            State::Open { clock } => entry.end > clock,
            State::Closed => false,
        }
    }

    /// The area of a journal holds exactly its wanted accepted entries, in
    /// ordinal order.
    pub fn area(&self, stream: Stream) -> Vec<Numbered> {
        if self.state(stream.other()) == State::Closed {
            return Vec::new(); // none is wanted
        }
        (0..)
            .zip(self.journal(stream).accepted.iter().copied())
            .filter(|(_, entry)| self.is_wanted(stream, entry))
            .collect()
    }

    /// Pairs formed and not yet handed out, in the plain list's order.
    pub fn waiting(&self) -> &[Pair] {
        &self.waiting
    }

    /// An accepted entry is paired with every entry held in the other area that
    /// it pairs with, also when it is itself not wanted and will not be held.
    fn new_pairs(&self, stream: Stream, entry: &Entry) -> Vec<Pair> {
        let arriving = (self.journal(stream).accepted.len() as u32, *entry);
        self.area(stream.other())
            .into_iter()
            .filter_map(|held| match stream {
                Stream::A => pair_of(self.rule, arriving, held),
                Stream::B => pair_of(self.rule, held, arriving),
            })
            .collect()
    }

    pub fn entry(&mut self, stream: Stream, entry: Entry) -> Result<(), Refusal> {
        let State::Open { clock } = self.state(stream) else {
            return Err(Refusal::Closed);
        };
        if !entry.is_proper() {
            return Err(Refusal::Improper);
        }
        if entry.start < clock {
            return Err(Refusal::BelowClock);
        }
        if self.journal(stream).accepted.len() >= ACCEPTED_LIMIT {
            return Err(Refusal::TooMany);
        }
        if !self.rule.allows(entry.key) {
            return Err(Refusal::OffCircle);
        }
        if self.is_wanted(stream, &entry) && self.area(stream).len() >= HELD_LIMIT {
            return Err(Refusal::AreaFull);
        }
        let new_pairs = self.new_pairs(stream, &entry);
        if self.waiting.len() + new_pairs.len() > WAITING_LIMIT {
            return Err(Refusal::WaitingFull);
        }
        // Accepted: only from here on does anything change.
        let journal = self.journal_mut(stream);
        journal.accepted.push(entry);
        journal.state = State::Open { clock: entry.start };
        self.waiting.extend(new_pairs);
        self.waiting.sort_by_key(Pair::order);
        Ok(())
    }

    pub fn mark(&mut self, stream: Stream, time: u32) -> Result<(), Refusal> {
        let State::Open { clock } = self.state(stream) else {
            return Err(Refusal::Closed);
        };
        if time < clock {
            return Err(Refusal::BelowClock);
        }
        self.journal_mut(stream).state = State::Open { clock: time };
        Ok(())
    }

    pub fn close(&mut self, stream: Stream) -> Result<(), Refusal> {
        if self.state(stream) == State::Closed {
            return Err(Refusal::Closed);
        }
        self.journal_mut(stream).state = State::Closed;
        Ok(())
    }

    /// A waiting pair is ready when its start is below the clock of every open
    /// journal; with both closed, all are ready.
    pub fn is_ready(&self, pair: &Pair) -> bool {
        [Stream::A, Stream::B]
            .into_iter()
            .all(|stream| match self.state(stream) {
                State::Open { clock } => pair.start < clock,
                State::Closed => true,
            })
    }

    /// A take hands out the first waiting pair if it is ready. With nothing
    /// ready it answers Finished when both journals are closed and nothing
    /// waits, else Waiting.
    pub fn take(&mut self) -> Take {
        if let Some(first) = self.waiting.first().copied() {
            if self.is_ready(&first) {
                self.waiting.remove(0);
                return Take::Pair(first);
            }
        }
        if self.both_closed() && self.waiting.is_empty() {
            Take::Finished
        } else {
            Take::Waiting
        }
    }
}
