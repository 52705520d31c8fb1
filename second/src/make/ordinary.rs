//! Feeds whose records are all accepted, as long as no limit is reached.

use super::draft::{Draft, Habits, STREAMS};
use crate::chance::Chance;
use crate::rules::Stream::{A, B};

/// The habits of a middling evening.
pub fn middling() -> Habits {
    Habits {
        step: 20,
        lengths: (1, 60),
        keys: vec![1, 2],
        marks: 15,
        notes: 5,
    }
}

/// Keys far apart, the least and the largest among them.
fn spread_keys(count: u32) -> Vec<u32> {
    (0..count)
        .map(|key| (u32::MAX / (count - 1)).saturating_mul(key))
        .collect()
}

/// The input that document 01 gives for joinfeed.
pub fn example_of_the_document() -> Vec<u8> {
    let mut draft = Draft::new();
    draft.entry(A, (10, 50), 7, 100);
    draft.entry(B, (20, 30), 7, 5);
    draft.entry(B, (30, 60), 7, 6);
    draft.entry(A, (50, 70), 7, 101);
    draft.close(A);
    draft.close(B);
    draft.bytes
}

/// Its eleventh bench example, with the keys that document 02 adds: near, width 2.
pub fn example_11() -> Vec<u8> {
    let mut draft = Draft::new();
    draft.entry(A, (0, 9), 5, 0);
    draft.entry(B, (0, 9), 7, 1);
    draft.entry(B, (0, 9), 8, 2);
    draft.entry(A, (0, 9), 35_999, 3);
    draft.entry(B, (0, 9), 1, 4);
    draft.close(A);
    draft.close(B);
    draft.bytes
}

/// The document's input for joinfeed with its journals interleaved anew.
pub fn example(chance: &mut Chance, _round: u32) -> Vec<u8> {
    let mut draft = Draft::new();
    let entries = [
        [((10, 50), 100), ((50, 70), 101)],
        [((20, 30), 5), ((30, 60), 6)],
    ];
    let mut done = [0, 0];
    while STREAMS.iter().any(|stream| draft.is_open(*stream)) {
        let stream = chance.pick(&STREAMS);
        let side = stream as usize;
        if let Some((interval, value)) = entries[side].get(done[side]) {
            draft.entry(stream, *interval, 7, *value);
            done[side] += 1;
        } else if draft.is_open(stream) {
            draft.close(stream);
        }
    }
    draft.bytes
}

/// No record at round 0, then a few.
pub fn short(chance: &mut Chance, round: u32) -> Vec<u8> {
    let mut draft = Draft::new();
    if round == 0 {
        return draft.bytes;
    }
    let habits = Habits {
        marks: 30,
        notes: 30,
        ..middling()
    };
    let records = chance.below(5);
    draft.records(chance, &habits, records);
    draft.ending(chance)
}

pub fn sparse(chance: &mut Chance, _round: u32) -> Vec<u8> {
    let habits = Habits {
        step: 1000,
        lengths: (1, 300),
        ..middling()
    };
    some_records(chance, &habits, (10, 40))
}

pub fn dense(chance: &mut Chance, _round: u32) -> Vec<u8> {
    let habits = Habits {
        step: 4,
        lengths: (20, 200),
        keys: vec![1],
        ..middling()
    };
    some_records(chance, &habits, (10, 32))
}

pub fn few_keys(chance: &mut Chance, _round: u32) -> Vec<u8> {
    let keys = chance.pick(&[1, 2, 3]);
    let habits = Habits {
        keys: (0..keys).collect(),
        ..middling()
    };
    some_records(chance, &habits, (10, 40))
}

pub fn many_keys(chance: &mut Chance, _round: u32) -> Vec<u8> {
    let keys = chance.between(8, 24);
    let habits = Habits {
        lengths: (20, 400),
        keys: spread_keys(keys),
        ..middling()
    };
    some_records(chance, &habits, (20, 50))
}

/// Short intervals among few instants: ends equal to starts and to marks,
/// starts equal to each other, on both sides.
pub fn touching(chance: &mut Chance, _round: u32) -> Vec<u8> {
    let habits = Habits {
        step: 2,
        lengths: (1, 4),
        keys: vec![3],
        marks: 25,
        ..middling()
    };
    some_records(chance, &habits, (10, 40))
}

/// The same entry several times over, each pairing on its own.
pub fn equal_entries(chance: &mut Chance, _round: u32) -> Vec<u8> {
    let mut draft = Draft::new();
    for _ in 0..chance.between(3, 8) {
        let stream = chance.pick(&STREAMS);
        let start = draft.clock(stream) + chance.below(6);
        let end = start + chance.between(1, 12);
        let (key, value) = (chance.below(2), chance.below(3));
        for _ in 0..chance.between(1, 4) {
            draft.entry(stream, (start, end), key, value);
        }
    }
    draft.ending(chance)
}

/// Long enough that areas and the waiting pairs are filled from freed room
/// many times over.
pub fn long(chance: &mut Chance, round: u32) -> Vec<u8> {
    let habits = Habits {
        step: 10,
        lengths: (1, 50),
        keys: vec![1, 2, 3],
        ..middling()
    };
    let records = match round % 20 {
        0 => (300, 400),
        _ => (50, 80),
    };
    some_records(chance, &habits, records)
}

/// So many records of a middling evening, then both closes.
pub fn of_records(chance: &mut Chance, count: u32) -> Vec<u8> {
    let mut draft = Draft::new();
    draft.records(chance, &middling(), count);
    draft.closing(chance)
}

fn some_records(chance: &mut Chance, habits: &Habits, (least, most): (u32, u32)) -> Vec<u8> {
    let mut draft = Draft::new();
    let records = chance.between(least, most);
    draft.records(chance, habits, records);
    draft.ending(chance)
}

/// Five notes a feed; thirteen rounds go through the lengths 0 to 64.
pub fn notes(chance: &mut Chance, round: u32) -> Vec<u8> {
    let mut draft = Draft::new();
    let as_text = chance.one_in(2);
    for turn in 0..5 {
        let size = (round * 5 + turn) % 65;
        let mut note = chance.bytes(size);
        if as_text {
            note.iter_mut().for_each(|byte| *byte = b' ' + *byte % 95);
        }
        draft.note(&note);
        draft.records(chance, &middling(), 2);
    }
    draft.ending(chance)
}

/// Times, keys and values at the ends of their range.
pub fn far_times(chance: &mut Chance, _round: u32) -> Vec<u8> {
    const FAR: [u32; 8] = [
        0,
        1,
        0x7FFF_FFFF,
        0x8000_0000,
        0x8000_0001,
        u32::MAX - 2,
        u32::MAX - 1,
        u32::MAX,
    ];
    let mut draft = Draft::new();
    for _ in 0..chance.between(3, 16) {
        let stream = chance.pick(&STREAMS);
        let clock = draft.clock(stream);
        // Mostly the clock itself, or the next of the far times.
        let next = FAR.into_iter().find(|time| *time > clock);
        let time = if chance.one_in(2) {
            next.unwrap_or(clock)
        } else {
            clock
        };
        let end = chance.pick(&FAR);
        if chance.one_in(6) || end <= time {
            draft.mark(stream, time);
        } else {
            let (key, value) = (chance.pick(&[0, u32::MAX]), chance.pick(&FAR));
            draft.entry(stream, (time, end), key, value);
        }
    }
    // At times a last one that is refused.
    let stream = chance.pick(&STREAMS);
    match chance.below(8) {
        0 => draft.entry(stream, (u32::MAX, u32::MAX), 0, 0),
        1 => draft.entry(stream, (u32::MAX, 0), 0, 0),
        2 => {
            draft.mark(stream, u32::MAX);
            draft.entry(stream, (u32::MAX - 1, u32::MAX), 0, 0);
        }
        _ => (),
    }
    draft.ending(chance)
}

/// One journal's clock runs ahead of the other's. Entries of the one behind are
/// then paired although they are not wanted, and their ends stand just below, at
/// and just above the clock ahead.
pub fn marks_ahead(chance: &mut Chance, _round: u32) -> Vec<u8> {
    let mut draft = Draft::new();
    let ahead = chance.pick(&STREAMS);
    let behind = ahead.other();
    for _ in 0..chance.between(1, 5) {
        let start = draft.clock(ahead) + chance.below(10);
        let end = start + chance.between(10, 120);
        let (key, value) = (chance.below(2), chance.below(1000));
        draft.entry(ahead, (start, end), key, value);
    }
    for _ in 0..chance.between(1, 4) {
        let mark = draft.clock(ahead) + chance.below(50);
        draft.mark(ahead, mark);
        for _ in 0..chance.below(6) {
            let start = draft.clock(behind) + chance.below(6);
            let at_the_clock = (draft.clock(ahead) + chance.below(3)).saturating_sub(1);
            let anywhere = start + chance.between(1, 40);
            let end = chance.pick(&[at_the_clock, anywhere]);
            let (key, value) = (chance.below(2), chance.below(1000));
            if start < end {
                draft.entry(behind, (start, end), key, value);
            }
        }
        if chance.one_in(3) {
            let mark = draft.clock(behind) + chance.below(20);
            draft.mark(behind, mark);
        }
    }
    draft.ending(chance)
}

/// One journal closes early and the other goes on.
pub fn early_close(chance: &mut Chance, _round: u32) -> Vec<u8> {
    let habits = Habits {
        lengths: (10, 150),
        ..middling()
    };
    let mut draft = Draft::new();
    let before = chance.below(16);
    draft.records(chance, &habits, before);
    draft.close(chance.pick(&STREAMS));
    let after = chance.below(16);
    draft.records(chance, &habits, after);
    draft.ending(chance)
}
