//! Bursts that reach 64 held entries and 256 waiting pairs exactly, go one over,
//! free room and use it again.

use super::draft::{Draft, STREAMS};
use crate::chance::Chance;
use crate::rules::Stream;

/// The intervals of a burst start before this time and end at it or later.
const MIDDLE: u32 = 1000;

/// An instant for a burst to start at, well before the middle.
fn early(chance: &mut Chance) -> u32 {
    chance.pick(&[0, 0, 1, 100])
}

/// So many entries of one journal with key 1, all of them across the middle.
/// Their starts begin at its clock and rise by 0 or 1. Their ends are answered.
fn burst(draft: &mut Draft, chance: &mut Chance, stream: Stream, count: usize) -> Vec<u32> {
    let rise = chance.below(2);
    let spread = chance.pick(&[1, 3, 100]);
    (0..count)
        .map(|_| {
            let start = draft.clock(stream) + chance.between(0, rise);
            let end = MIDDLE + chance.below(spread);
            draft.entry(stream, (start, end), 1, chance.below(100));
            end
        })
        .collect()
}

/// The entry that is one more than the burst.
fn one_more(draft: &mut Draft, stream: Stream, key: u32) {
    let start = draft.clock(stream);
    draft.entry(stream, (start, start + 2 * MIDDLE), key, 0);
}

/// 64 held entries in the area of one journal.
pub fn filled_area(draft: &mut Draft, chance: &mut Chance, stream: Stream) -> Vec<u32> {
    let start = early(chance);
    draft.mark(stream, start);
    burst(draft, chance, stream, 64)
}

/// 256 waiting pairs of key 1, as so many entries of `first` and then so many of
/// the other. The other's clock stands still, so none is ready.
pub fn filled_waiting(
    draft: &mut Draft,
    chance: &mut Chance,
    first: Stream,
    (of_first, of_other): (usize, usize),
) {
    let start = early(chance);
    draft.mark(first, start);
    burst(draft, chance, first, of_first);
    for _ in 0..of_other {
        let end = MIDDLE + chance.below(50);
        let value = chance.below(100);
        draft.entry(first.other(), (start, end), 1, value);
    }
}

/// The area is filled exactly; then what needs no room in it, and one more.
pub fn full_area(chance: &mut Chance, round: u32) -> Vec<u8> {
    let mut draft = Draft::new();
    let full = chance.pick(&STREAMS);
    let other = full.other();
    filled_area(&mut draft, chance, full);
    match round % 6 {
        0 => (),
        1 => one_more(&mut draft, full, 1),
        2 => {
            // Entries that are not wanted need no room, up to an end at the
            // other's clock.
            draft.mark(other, 500);
            let start = draft.clock(full);
            draft.entry(full, (start, start + 1), 1, 0);
            draft.entry(full, (start, 500), 1, 0);
            if chance.one_in(2) {
                draft.entry(full, (start, 501), 1, 0);
            }
        }
        3 => {
            // The journal's own clock frees nothing.
            draft.mark(full, 3 * MIDDLE);
            one_more(&mut draft, full, 1);
        }
        4 => {
            // Its own close frees nothing either: the others still pair.
            draft.close(full);
            burst(&mut draft, chance, other, 2);
        }
        _ => {
            // Nor does a clock of the other that stands just below the ends.
            let key = chance.below(2);
            draft.entry(other, (MIDDLE - 1, 2 * MIDDLE), key, 0);
            one_more(&mut draft, full, 1);
        }
    }
    draft.ending(chance)
}

/// The area is filled, some of it freed by the other journal, filled again
/// exactly, and mostly gone one over.
pub fn area_freed(chance: &mut Chance, round: u32) -> Vec<u8> {
    let mut draft = Draft::new();
    let full = chance.pick(&STREAMS);
    let other = full.other();
    let ends = filled_area(&mut draft, chance, full);
    let time = match round % 4 {
        0 => {
            // Freed by a mark at one of the ends: an end at the clock is freed.
            let time = chance.pick(&ends);
            draft.mark(other, time);
            time
        }
        1 => {
            // Freed by an entry's start, which pairs with those still held.
            let time = chance.pick(&ends);
            draft.entry(other, (time, time + 5), 1, 7);
            time
        }
        2 => {
            // One below the first end: nothing is freed.
            let first = ends.iter().copied().min().unwrap_or(MIDDLE);
            draft.mark(other, first - 1);
            first - 1
        }
        _ => {
            // Freed by the close, and nothing is held any more.
            draft.close(other);
            let more = chance.below(12) as usize;
            burst(&mut draft, chance, full, more);
            return draft.ending(chance);
        }
    };
    let freed = ends.iter().filter(|end| **end <= time).count();
    for _ in 0..freed {
        let start = draft.clock(full);
        draft.entry(full, (start, time + chance.between(1, 9)), 1, 1);
    }
    if !chance.one_in(4) {
        one_more(&mut draft, full, 1);
    }
    draft.ending(chance)
}

/// The waiting pairs are filled exactly; then what forms no pair, and one more.
pub fn full_waiting(chance: &mut Chance, round: u32) -> Vec<u8> {
    let mut draft = Draft::new();
    let first = chance.pick(&STREAMS);
    let shape = chance.pick(&[(64, 4), (32, 8), (16, 16), (16, 16), (8, 32), (4, 64)]);
    match round % 5 {
        0 => filled_waiting(&mut draft, chance, first, shape),
        1 => {
            filled_waiting(&mut draft, chance, first, shape);
            one_more(&mut draft, first.other(), 1);
        }
        2 => {
            // Another key forms no pair, and neither journal's area is full.
            filled_waiting(&mut draft, chance, first, (16, 16));
            one_more(&mut draft, first, 2);
            one_more(&mut draft, first.other(), 3);
            if chance.one_in(2) {
                // One pair too many.
                one_more(&mut draft, first, 3);
            }
        }
        3 => {
            // 255, and then one or two new pairs of another key.
            let fitting = chance.between(1, 2);
            for _ in 0..fitting {
                draft.entry(first, (0, 2 * MIDDLE), 2, 5);
            }
            filled_waiting(&mut draft, chance, first, (17, 15));
            one_more(&mut draft, first.other(), 2);
        }
        _ => {
            // The entry over is not wanted, and is refused all the same.
            filled_waiting(&mut draft, chance, first, (16, 16));
            draft.mark(first, 900);
            let start = draft.clock(first.other());
            draft.entry(first.other(), (start, 800), 1, 0);
        }
    }
    draft.ending(chance)
}

/// The waiting pairs are filled, some handed out, filled again exactly, and
/// mostly gone one over.
pub fn waiting_freed(chance: &mut Chance, round: u32) -> Vec<u8> {
    let mut draft = Draft::new();
    let first = chance.pick(&STREAMS);
    let other = first.other();
    match round % 3 {
        0 => {
            // 16 pairs start at each of 16 instants. A mark past the first k
            // hands out 16 k of them, and k more entries form 16 each.
            for instant in 10..26 {
                draft.entry(first, (instant, MIDDLE), 1, instant);
            }
            for value in 0..16 {
                draft.entry(other, (10, MIDDLE), 1, value);
            }
            let taken = chance.between(1, 3);
            draft.mark(other, 10 + taken);
            for value in 0..taken {
                draft.entry(other, (10 + taken, MIDDLE), 1, 100 + value);
            }
            if chance.one_in(2) {
                one_more(&mut draft, other, 1);
            }
        }
        1 => {
            // A close makes the pairs below the open clock ready, the rest wait.
            filled_waiting(&mut draft, chance, first, (16, 16));
            draft.close(first);
            let clock = draft.clock(other) + chance.below(10);
            draft.mark(other, clock);
            let more = chance.between(1, 3) as usize;
            burst(&mut draft, chance, other, more);
        }
        _ => {
            // Time and again 64 pairs, more than 256 in all.
            let mut time = early(chance);
            for _ in 0..chance.between(2, 5) {
                for value in 0..8 {
                    draft.entry(first, (time, time + 10), 1, value);
                    draft.entry(other, (time, time + 10), 1, value);
                }
                time += chance.between(10, 12);
                if !chance.one_in(3) {
                    draft.mark(chance.pick(&STREAMS), time);
                }
            }
            return draft.closing(chance);
        }
    }
    draft.ending(chance)
}
