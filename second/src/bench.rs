//! The twelve bench examples of document 01, on the join, the eleventh with what
//! P2 of document 02 adds to it.

use crate::refusal::Refusal;
use crate::rules::Stream::{A, B};
use crate::rules::{Entry, Join, Pair, Rule, Stream, Take, ACCEPTED_LIMIT};

/// Key 1 unless said.
fn entry(start: u32, end: u32) -> Entry {
    Entry {
        start,
        end,
        key: 1,
        value: 0,
    }
}

/// Key 36,000, the first off the circle.
fn off(start: u32, end: u32) -> Entry {
    Entry {
        key: 36_000,
        ..entry(start, end)
    }
}

/// Fresh join, equal keys unless said.
fn fresh() -> Join {
    Join::fresh(Rule::Equal)
}

/// A join that accepted these entries.
fn joined(entries: &[(Stream, u32, u32)]) -> Join {
    joined_by(Rule::Equal, entries)
}

fn joined_by(rule: Rule, entries: &[(Stream, u32, u32)]) -> Join {
    let mut join = Join::fresh(rule);
    for (stream, start, end) in entries {
        assert_eq!(join.entry(*stream, entry(*start, *end)), Ok(()));
    }
    join
}

/// The waiting pairs as start, end, A ordinal, B ordinal.
fn waiting(join: &Join) -> Vec<(u32, u32, u32, u32)> {
    let short = |pair: &Pair| (pair.start, pair.end, pair.a_ordinal, pair.b_ordinal);
    join.waiting().iter().map(short).collect()
}

/// The number a call is refused with, and that it changed nothing.
fn refused(join: &mut Join, call: impl FnOnce(&mut Join) -> Result<(), Refusal>) -> u8 {
    let before = join.clone();
    let number = call(join).unwrap_err().number();
    assert_eq!(*join, before);
    number
}

#[test]
fn example_1_touching_entries_do_not_pair() {
    assert_eq!(waiting(&joined(&[(A, 10, 20), (B, 20, 30)])), []);
}

#[test]
fn example_2_one_instant_is_a_pair() {
    let join = joined(&[(A, 10, 21), (B, 20, 30)]);
    assert_eq!(waiting(&join), [(20, 21, 0, 0)]);
}

#[test]
fn example_3_an_end_at_the_other_clock_is_not_wanted() {
    let mut join = joined(&[(A, 5, 6)]);
    assert_eq!(join.mark(B, 5), Ok(()));
    assert_eq!(join.area(A).len(), 1);
    assert_eq!(join.mark(B, 6), Ok(()));
    assert_eq!(join.area(A), []);
}

#[test]
fn example_4_an_unwanted_entry_is_paired() {
    let mut join = joined(&[(B, 2, 20)]);
    assert_eq!(join.mark(B, 10), Ok(()));
    assert_eq!(join.entry(A, entry(3, 5)), Ok(()));
    assert_eq!(waiting(&join), [(3, 5, 0, 0)]);
    assert!(!join.is_ready(&join.waiting()[0]));
    assert_eq!(join.area(A), []);
    assert_eq!(join.take(), Take::Waiting);
    assert_eq!(join.mark(A, 4), Ok(()));
    assert!(join.is_ready(&join.waiting()[0]));
    assert!(matches!(join.take(), Take::Pair(_)));
    assert_eq!(join.take(), Take::Waiting);
}

#[test]
fn example_5_equal_entries_pair_each_on_its_own() {
    let join = joined(&[(A, 1, 4), (A, 1, 4), (B, 2, 3)]);
    assert_eq!(waiting(&join), [(2, 3, 0, 0), (2, 3, 1, 0)]);
}

#[test]
fn example_6_an_empty_entry() {
    let mut join = fresh();
    assert_eq!(refused(&mut join, |join| join.entry(A, entry(7, 7))), 3);
}

#[test]
fn example_7_the_last_instant() {
    joined(&[(A, 4294967294, 4294967295)]);
}

#[test]
fn example_8_below_the_clock_and_at_it() {
    let mut join = fresh();
    assert_eq!(join.mark(A, 10), Ok(()));
    assert_eq!(refused(&mut join, |join| join.entry(A, entry(9, 12))), 4);
    assert_eq!(join.entry(A, entry(10, 12)), Ok(()));
    assert_eq!(refused(&mut join, |join| join.mark(A, 9)), 4);
    assert_eq!(join.mark(A, 10), Ok(()));
}

#[test]
fn example_9_a_full_area() {
    let mut join = joined(&[(A, 0, 9); 64]);
    assert_eq!(refused(&mut join, |join| join.entry(A, entry(0, 9))), 6);
    assert_eq!(join.mark(B, 9), Ok(()));
    assert_eq!(join.entry(A, entry(0, 10)), Ok(()));
    assert_eq!(join.area(A), [(64, entry(0, 10))]);
}

#[test]
fn example_10_full_waiting() {
    let mut join = joined(&[(A, 0, 100); 64]);
    for _ in 0..4 {
        assert_eq!(join.entry(B, entry(0, 100)), Ok(()));
    }
    assert_eq!(join.waiting().len(), 256);
    assert!(!join.waiting().iter().any(|pair| join.is_ready(pair)));
    assert_eq!(refused(&mut join, |join| join.entry(B, entry(0, 100))), 7);
}

/// Whether an A entry and a B entry that hold at the same time pair.
fn keys_pair(rule: Rule, a_key: u32, b_key: u32) -> bool {
    let keyed = |key| Entry { key, ..entry(0, 9) };
    let mut join = Join::fresh(rule);
    assert_eq!(join.entry(A, keyed(a_key)), Ok(()));
    assert_eq!(join.entry(B, keyed(b_key)), Ok(()));
    waiting(&join) == [(0, 9, 0, 0)]
}

#[test]
fn example_11_near_keys() {
    assert!(keys_pair(Rule::Near(2), 5, 7));
    assert!(!keys_pair(Rule::Near(2), 5, 8));
    assert!(keys_pair(Rule::Near(2), 35_999, 1));
    assert!(!keys_pair(Rule::Near(2), 35_999, 2));
    // Whichever of the two is the larger.
    assert!(keys_pair(Rule::Near(2), 7, 5));
    assert!(!keys_pair(Rule::Near(2), 8, 5));
    assert!(keys_pair(Rule::Near(2), 1, 35_999));
    assert!(!keys_pair(Rule::Near(2), 2, 35_999));
}

#[test]
fn the_rules_at_the_ends_of_the_keys() {
    assert!(keys_pair(Rule::Near(0), 5, 5));
    assert!(!keys_pair(Rule::Near(0), 5, 6));
    assert!(keys_pair(Rule::Near(1), 35_999, 0));
    assert!(!keys_pair(Rule::Near(0), 35_999, 0));
    assert!(keys_pair(Rule::Near(u32::MAX), 0, 18_000));
    assert!(keys_pair(Rule::Every, 0, u32::MAX));
}

#[test]
fn half_a_turn_is_as_far_either_way_round() {
    for (a_key, b_key) in [(0, 18_000), (18_000, 0), (17_999, 35_999), (35_999, 17_999)] {
        assert!(keys_pair(Rule::Near(18_000), a_key, b_key));
        assert!(!keys_pair(Rule::Near(17_999), a_key, b_key));
    }
    // One more the one way is one less the other.
    for key in [17_999, 18_001] {
        assert!(keys_pair(Rule::Near(17_999), 0, key));
        assert!(!keys_pair(Rule::Near(17_998), 0, key));
    }
}

#[test]
fn a_key_off_the_circle_is_refused_under_near_alone() {
    for key in [36_000, 36_001, u32::MAX] {
        let keyed = Entry { key, ..entry(0, 9) };
        for stream in [A, B] {
            let mut join = joined_by(Rule::Near(u32::MAX), &[(A, 0, 9), (B, 0, 9)]);
            assert_eq!(refused(&mut join, |join| join.entry(stream, keyed)), 13);
        }
        // Outside a join it pairs with nothing.
        assert!(!Rule::Near(u32::MAX).holds(key, key));
        assert!(!Rule::Near(u32::MAX).holds(0, key));
        assert!(!Rule::Near(u32::MAX).holds(key, 0));
        assert!(keys_pair(Rule::Equal, key, key));
        assert!(keys_pair(Rule::Every, key, key));
    }
}

#[test]
fn example_12_waiting_and_finished() {
    let mut join = fresh();
    assert_eq!(join.take(), Take::Waiting);
    assert_eq!(join.close(A), Ok(()));
    assert_eq!(join.take(), Take::Waiting);
    assert_eq!(join.close(B), Ok(()));
    assert_eq!(join.take(), Take::Finished);
}

#[test]
fn different_keys_do_not_pair() {
    let mut join = joined(&[(A, 0, 9)]);
    let other = Entry {
        key: 2,
        ..entry(0, 9)
    };
    assert_eq!(join.entry(B, other), Ok(()));
    assert_eq!(waiting(&join), []);
}

#[test]
fn only_the_other_clock_ends_an_entrys_use() {
    let mut join = joined(&[(A, 0, 9), (B, 0, 9)]);
    assert_eq!(join.mark(A, 50), Ok(()));
    assert_eq!((join.area(A).len(), join.area(B).len()), (1, 0));
}

#[test]
fn closing_a_journal_empties_the_other_area_and_leaves_its_own() {
    let mut join = joined(&[(A, 0, 9), (B, 0, 9)]);
    assert_eq!(join.close(A), Ok(()));
    assert_eq!((join.area(A).len(), join.area(B).len()), (1, 0));
    // What is held still pairs.
    assert_eq!(join.entry(B, entry(1, 5)), Ok(()));
    assert_eq!(waiting(&join), [(0, 9, 0, 0), (1, 5, 0, 1)]);
    assert_eq!(refused(&mut join, |join| join.close(A)), 2);
    assert_eq!(refused(&mut join, |join| join.mark(A, 99)), 2);
}

#[test]
fn a_pair_that_starts_at_the_earlier_clock_is_not_ready() {
    let mut join = joined(&[(A, 3, 9), (B, 3, 9)]);
    assert_eq!(join.take(), Take::Waiting);
    assert_eq!(join.mark(A, 4), Ok(()));
    assert_eq!(join.take(), Take::Waiting);
    assert_eq!(join.mark(B, 4), Ok(()));
    assert!(matches!(join.take(), Take::Pair(_)));
}

#[test]
fn the_first_refusal_of_the_table_is_given() {
    let mut join = joined(&[(A, 5, 100); 64]);
    for _ in 0..4 {
        assert_eq!(join.entry(B, entry(0, 100)), Ok(()));
    }
    // 6 before 7
    assert_eq!(refused(&mut join, |join| join.entry(A, entry(5, 100))), 6);
    // 4 before 6, 3 before 4
    assert_eq!(refused(&mut join, |join| join.entry(A, entry(4, 100))), 4);
    assert_eq!(refused(&mut join, |join| join.entry(A, entry(4, 4))), 3);
    // Not wanted, so not 6
    assert_eq!(join.mark(B, 50), Ok(()));
    assert_eq!(refused(&mut join, |join| join.entry(A, entry(5, 50))), 7);
    // 2 before 3
    assert_eq!(join.close(A), Ok(()));
    assert_eq!(refused(&mut join, |join| join.entry(A, entry(4, 4))), 2);
}

#[test]
fn refusal_13_comes_before_6_and_7_and_after_2_3_and_4() {
    let mut join = joined_by(Rule::Near(2), &[(A, 5, 100); 64]);
    for _ in 0..4 {
        assert_eq!(join.entry(B, entry(0, 100)), Ok(()));
    }
    // 13 before 6
    assert_eq!(refused(&mut join, |join| join.entry(A, entry(5, 100))), 6);
    assert_eq!(refused(&mut join, |join| join.entry(A, off(5, 100))), 13);
    // 13 before 7
    assert_eq!(refused(&mut join, |join| join.entry(B, entry(0, 100))), 7);
    assert_eq!(refused(&mut join, |join| join.entry(B, off(0, 100))), 13);
    // 4 before 13, 3 and 2 too
    assert_eq!(refused(&mut join, |join| join.entry(A, off(4, 100))), 4);
    assert_eq!(refused(&mut join, |join| join.entry(A, off(5, 5))), 3);
    assert_eq!(join.close(A), Ok(()));
    assert_eq!(refused(&mut join, |join| join.entry(A, off(5, 100))), 2);
}

#[test]
fn refusal_13_comes_after_5() {
    let mut join = Join::fresh(Rule::Near(2));
    // With B closed no A entry is wanted, so none is held.
    assert_eq!(join.close(B), Ok(()));
    for _ in 1..ACCEPTED_LIMIT {
        assert_eq!(join.entry(A, entry(0, 9)), Ok(()));
    }
    assert_eq!(refused(&mut join, |join| join.entry(A, off(0, 9))), 13);
    assert_eq!(join.entry(A, entry(0, 9)), Ok(()));
    assert_eq!(refused(&mut join, |join| join.entry(A, off(0, 9))), 5);
}
