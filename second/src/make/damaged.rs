//! Feeds that cannot be read to their end: cut, or with a wrong length, kind or
//! stream.

use super::draft::{Draft, STREAMS};
use super::example_of_the_document;
use super::ordinary::middling;
use crate::chance::Chance;
use crate::records::kind;
use crate::rules::Stream::{A, B};

/// Some records, then these bytes, then often some records that must not be read.
fn around(chance: &mut Chance, bytes: &[u8]) -> Vec<u8> {
    let mut draft = Draft::new();
    let before = chance.below(10);
    draft.records(chance, &middling(), before);
    draft.bytes.extend(bytes);
    if chance.one_in(3) {
        return draft.bytes;
    }
    let after = chance.below(6);
    draft.records(chance, &middling(), after);
    draft.ending(chance)
}

fn with_header(length: u16, kind: u16, fields: &[u8]) -> Vec<u8> {
    let mut bytes = length.to_le_bytes().to_vec();
    bytes.extend(kind.to_le_bytes());
    bytes.extend(fields);
    bytes
}

/// 1: a stream from 2 to 65535. Sometimes the interval is improper too, which is
/// not judged.
fn record_of_wrong_stream(chance: &mut Chance) -> Vec<u8> {
    let any = chance.between(2, 65535) as u16;
    let stream = chance.pick(&[2, 3, 256, 257, 32768, 65535, any, any]);
    let kind = chance.pick(&[kind::ENTRY, kind::MARK, kind::CLOSE]);
    let mut fields = stream.to_le_bytes().to_vec();
    let numbers = match kind {
        kind::ENTRY => 4,
        kind::MARK => 1,
        _ => 0,
    };
    for _ in 0..numbers {
        fields.extend(chance.below(100).to_le_bytes());
    }
    with_header(2 + fields.len() as u16, kind, &fields)
}

/// 10: a length that is wrong for the kind, below 2 or above 66. As many bytes
/// follow as it says, or one fewer, or none.
fn record_of_wrong_length(chance: &mut Chance) -> Vec<u8> {
    let (kind, right) = chance.pick(&[(kind::ENTRY, 20), (kind::MARK, 8), (kind::CLOSE, 4)]);
    let (kind, length) = if chance.one_in(2) {
        let kind = chance.pick(&[kind, kind::NOTE]);
        let above = chance.between(67, 65535) as u16;
        let outside = [0, 1, 1, 67, 67, 68, 256, 256 + right, 65535, above];
        (kind, chance.pick(&outside))
    } else {
        let any = chance.between(2, 66) as u16;
        let inside = [right - 1, right + 1, 2, 3, 66, any];
        match chance.pick(&inside) {
            length if length == right => (kind, 66),
            length => (kind, length),
        }
    };
    if length < 2 && chance.one_in(2) {
        return length.to_le_bytes().to_vec();
    }
    let all = u32::from(length.min(80)).saturating_sub(2);
    let follow = chance.pick(&[all, all, all, all.saturating_sub(1), 0]);
    // Streams right and wrong: the length comes first.
    let mut fields = chance.bytes(follow);
    if chance.one_in(2) {
        fields.iter_mut().take(2).for_each(|byte| *byte = 0);
    }
    with_header(length, kind, &fields)
}

/// 11: a kind that an input feed does not know, the pair's among them, with the
/// length of some known kind or any length.
fn record_of_wrong_kind(chance: &mut Chance) -> Vec<u8> {
    let any = chance.between(5, 65535) as u16;
    let high = chance.between(1, 255) as u16 * 256 + chance.between(1, 4) as u16;
    let kind = chance.pick(&[0, 5, 257, 257, 256, 65535, any, high]);
    let any = chance.between(2, 66) as u16;
    let length = chance.pick(&[20, 8, 4, 2, 34, 66, any]);
    let fields = chance.bytes(u32::from(length) - 2);
    with_header(length, kind, &fields)
}

/// Records that a feed may end inside of. Some have a wrong length, kind or
/// stream besides, which is then not judged, unless the length is out of bounds.
const ENDING_EARLY: [&[u8]; 10] = [
    &[8],
    &[2, 0],
    &[4, 0, 3, 0, 0],
    &[66, 0, 4, 0],
    &[5, 0, 3, 0, 0, 0],
    &[4, 0, 9, 0, 0],
    &[8, 0, 2, 0, 2, 0],
    &[0, 0],
    &[1, 0],
    &[67, 0],
];

/// A record that cannot be read.
pub fn record(chance: &mut Chance) -> Vec<u8> {
    match chance.below(4) {
        0 => record_of_wrong_stream(chance),
        1 => record_of_wrong_length(chance),
        2 => record_of_wrong_kind(chance),
        _ => chance.pick(&ENDING_EARLY).to_vec(),
    }
}

pub fn stream(chance: &mut Chance, _round: u32) -> Vec<u8> {
    let bytes = record_of_wrong_stream(chance);
    around(chance, &bytes)
}

pub fn length(chance: &mut Chance, _round: u32) -> Vec<u8> {
    let bytes = record_of_wrong_length(chance);
    around(chance, &bytes)
}

pub fn kind(chance: &mut Chance, _round: u32) -> Vec<u8> {
    let bytes = record_of_wrong_kind(chance);
    around(chance, &bytes)
}

/// The document's example cut behind each of its bytes in turn.
pub fn cut_example(_chance: &mut Chance, round: u32) -> Vec<u8> {
    cut(example_of_the_document(), round)
}

/// A small feed of every kind of record, cut behind each of its bytes in turn.
pub fn cut_small(_chance: &mut Chance, round: u32) -> Vec<u8> {
    let mut draft = Draft::new();
    draft.note(b"lamps");
    draft.entry(B, (256, 1024), 258, 513);
    draft.mark(A, 300);
    draft.close(A);
    cut(draft.bytes, round)
}

fn cut(mut feed: Vec<u8>, round: u32) -> Vec<u8> {
    let length = round as usize % feed.len();
    feed.truncate(length);
    feed
}

/// A feed cut somewhere in its last records, of which the last may be damaged
/// besides.
pub fn cut_anywhere(chance: &mut Chance, round: u32) -> Vec<u8> {
    let mut feed = a_feed(chance);
    match round % 3 {
        0 => (),
        1 => feed.extend(record(chance)),
        _ => {
            feed.extend(chance.pick(&ENDING_EARLY));
            return feed;
        }
    }
    let cut = chance.between(1, 22) as usize;
    feed.truncate(feed.len().saturating_sub(cut));
    feed
}

/// A feed with one byte changed, whatever it was.
pub fn one_byte_changed(chance: &mut Chance, _round: u32) -> Vec<u8> {
    let mut feed = a_feed(chance);
    let place = chance.below(feed.len() as u32) as usize;
    let any = chance.draw() as u8;
    let bit = 1 << chance.below(8);
    feed[place] = chance.pick(&[any, feed[place] ^ bit, 0, 255]);
    feed
}

fn a_feed(chance: &mut Chance) -> Vec<u8> {
    let mut draft = Draft::new();
    draft.mark(chance.pick(&STREAMS), 1);
    let records = chance.below(16);
    draft.records(chance, &middling(), records);
    draft.closing(chance)
}

/// Bytes by chance: all of them, or only those behind small lengths and kinds,
/// so that some begin with records.
pub fn any_bytes(chance: &mut Chance, round: u32) -> Vec<u8> {
    if round % 3 == 0 {
        let size = chance.below(60);
        return chance.bytes(size);
    }
    let mut feed = Vec::new();
    for _ in 0..chance.between(1, 8) {
        let kind = chance.pick(&[kind::MARK, kind::CLOSE, kind::NOTE, kind::NOTE, 0, 5]);
        let length = match kind {
            kind::MARK => 8,
            kind::CLOSE => 4,
            _ => chance.between(1, 12) as u16,
        };
        let mut fields = chance.bytes(u32::from(length).saturating_sub(2));
        if let ([low, high, ..], false) = (&mut fields[..], chance.one_in(6)) {
            // A stream that is known.
            *low %= 2;
            *high = 0;
        }
        feed.extend(with_header(length, kind, &fields));
    }
    feed
}
