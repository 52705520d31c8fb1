//! Feeds that the join refuses: whole records that come at the wrong time.

use super::bursts::{filled_area, filled_waiting};
use super::damaged;
use super::draft::{Draft, STREAMS};
use super::ordinary::middling;
use crate::chance::Chance;
use crate::rules::Stream;

/// A feed that has begun, with both journals past time 0.
fn begun(chance: &mut Chance) -> Draft {
    let mut draft = Draft::new();
    for stream in STREAMS {
        draft.mark(stream, chance.between(5, 30));
    }
    let records = chance.below(12);
    draft.records(chance, &middling(), records);
    draft
}

/// Some records after the refused one, which must not be read.
fn going_on(mut draft: Draft, chance: &mut Chance) -> Vec<u8> {
    let records = chance.below(4);
    draft.records(chance, &middling(), records);
    draft.ending(chance)
}

/// An entry, a mark or a close, good but for its time.
fn any_record(draft: &mut Draft, chance: &mut Chance, stream: Stream) {
    let time = draft.clock(stream) + chance.below(3);
    match chance.below(3) {
        0 => draft.entry(stream, (time, time + 5), 1, 9),
        1 => draft.mark(stream, time),
        _ => draft.close(stream),
    }
}

/// After both closes notes are accepted and nothing else is.
pub fn after_both_closes(chance: &mut Chance, round: u32) -> Vec<u8> {
    let mut draft = begun(chance);
    let first = chance.pick(&STREAMS);
    draft.close(first);
    draft.close(first.other());
    for _ in 0..chance.below(4) {
        let size = chance.below(65);
        draft.note(&chance.bytes(size));
    }
    match round % 3 {
        0 => (),
        1 => {
            let stream = chance.pick(&STREAMS);
            any_record(&mut draft, chance, stream);
        }
        _ => draft.bytes.extend(damaged::record(chance)),
    }
    draft.bytes
}

/// 2: a record of a closed journal while the other is open.
pub fn closed(chance: &mut Chance, _round: u32) -> Vec<u8> {
    let mut draft = begun(chance);
    let stream = chance.pick(&STREAMS);
    draft.close(stream);
    let records = chance.below(4);
    draft.records(chance, &middling(), records);
    any_record(&mut draft, chance, stream);
    going_on(draft, chance)
}

/// 3: an entry that is empty or ends before it starts.
pub fn improper(chance: &mut Chance, _round: u32) -> Vec<u8> {
    let mut draft = begun(chance);
    let stream = chance.pick(&STREAMS);
    let start = draft.clock(stream) + chance.below(3);
    let end = chance.pick(&[start, start, start - 1, 0]);
    draft.entry(stream, (start, end), 1, 9);
    going_on(draft, chance)
}

/// 4: an entry or a mark just below its journal's clock or far below it, after
/// one at the clock, which is accepted.
pub fn below_clock(chance: &mut Chance, _round: u32) -> Vec<u8> {
    let mut draft = begun(chance);
    let stream = chance.pick(&STREAMS);
    let clock = draft.clock(stream);
    if chance.one_in(2) {
        draft.entry(stream, (clock, clock + 1), 1, 9);
    } else {
        draft.mark(stream, clock);
    }
    let time = chance.pick(&[clock - 1, clock - 1, 0]);
    if chance.one_in(2) {
        draft.entry(stream, (time, clock + 10), 1, 9);
    } else {
        draft.mark(stream, time);
    }
    going_on(draft, chance)
}

/// A record that two or more of 2, 3, 4, 6 and 7 apply to: the first in the
/// table's order is given.
pub fn several(chance: &mut Chance, round: u32) -> Vec<u8> {
    let stream = chance.pick(&STREAMS);
    let variant = round % 10;
    let mut draft = match variant {
        0..=3 => begun(chance),
        4..=6 => {
            let mut draft = Draft::new();
            filled_area(&mut draft, chance, stream);
            draft.mark(stream, 500);
            draft
        }
        _ => {
            let mut draft = Draft::new();
            filled_waiting(&mut draft, chance, stream.other(), (4, 64));
            draft
        }
    };
    let clock = draft.clock(stream);
    match variant {
        // closed, and improper
        0 => {
            draft.close(stream);
            draft.entry(stream, (clock, clock), 1, 9);
        }
        // closed, and below the clock it had
        1 => {
            draft.close(stream);
            draft.entry(stream, (clock - 1, clock + 1), 1, 9);
        }
        // closed, improper and below the clock it had
        2 => {
            draft.close(stream);
            draft.entry(stream, (clock - 1, 0), 1, 9);
        }
        // improper and below the clock
        3 => draft.entry(stream, (clock - 1, clock - 1), 1, 9),
        // improper, and the area is full
        4 => draft.entry(stream, (clock, clock), 1, 9),
        // below the clock, and the area is full
        5 => draft.entry(stream, (clock - 1, clock + 9), 1, 9),
        // closed, and the area is full
        6 => {
            draft.close(stream);
            draft.entry(stream, (clock, clock + 9), 1, 9);
        }
        // the area is full, and so are the waiting pairs
        7 => draft.entry(stream, (clock, clock + 2000), 1, 9),
        // the area is full but the entry not wanted: only the waiting pairs are
        // too many
        8 => {
            draft.mark(stream.other(), 500);
            draft.entry(stream, (clock, 500), 1, 9);
        }
        // improper, and the waiting pairs are full
        _ => draft.entry(stream.other(), (500, 500), 1, 9),
    }
    going_on(draft, chance)
}
