//! The records of an input feed, and reading and writing them.
//!
//! House layout, little-endian: 2 bytes of length (all that follows it),
//! 2 bytes of kind, then the fields.

use crate::refusal::Refusal;
use crate::rules::{Entry, Stream};

/// A note has 0 to 64 bytes of text.
pub const NOTE_LIMIT: usize = 64;

/// The numbers of the kinds that an input feed knows.
pub mod kind {
    pub const ENTRY: u16 = 1;
    pub const MARK: u16 = 2;
    pub const CLOSE: u16 = 3;
    pub const NOTE: u16 = 4;
}

#[derive(Clone, Debug, PartialEq, Eq)]
pub enum Record {
    Entry(Stream, Entry),
    Mark(Stream, u32),
    Close(Stream),
    Note(Vec<u8>),
}

/// What a reading answers.
#[derive(Clone, Debug, PartialEq, Eq)]
pub enum Reading {
    /// A record with the place of the next.
    Record(Record, usize),
    /// A refusal with its place, the record's first byte.
    Refused(Refusal, usize),
    /// No byte is left.
    End,
}

fn u16_at(bytes: &[u8], place: usize) -> u16 {
    u16::from_le_bytes([bytes[place], bytes[place + 1]])
}

fn u32_at(bytes: &[u8], place: usize) -> u32 {
    u32::from_le_bytes([
        bytes[place],
        bytes[place + 1],
        bytes[place + 2],
        bytes[place + 3],
    ])
}

/// The reading at a place of the feed. The checks stand in the document's
/// order: End, 9, 10, 9, 11, 10, 1.
pub fn reading(feed: &[u8], place: usize) -> Reading {
    if place >= feed.len() {
        return Reading::End;
    }
    match record_at(&feed[place..]) {
        Ok((record, whole)) => Reading::Record(record, place + whole),
        Err(refusal) => Reading::Refused(refusal, place),
    }
}

/// The record that some bytes begin with, and its whole length.
fn record_at(bytes: &[u8]) -> Result<(Record, usize), Refusal> {
    if bytes.len() < 2 {
        return Err(Refusal::Ends);
    }
    let length = u16_at(bytes, 0) as usize;
    if !(2..=66).contains(&length) {
        return Err(Refusal::Length);
    }
    if bytes.len() - 2 < length {
        return Err(Refusal::Ends);
    }
    let whole = 2 + length;
    let kind = u16_at(bytes, 2);
    let fields = &bytes[4..whole];
    let right_length = match kind {
        kind::ENTRY => length == 20,
        kind::MARK => length == 8,
        kind::CLOSE => length == 4,
        kind::NOTE => true, // 2 to 66, as any record here
        _ => return Err(Refusal::Kind),
    };
    if !right_length {
        return Err(Refusal::Length);
    }
    if kind == kind::NOTE {
        return Ok((Record::Note(fields.to_vec()), whole));
    }
    let stream = match u16_at(fields, 0) {
        0 => Stream::A,
        1 => Stream::B,
        _ => return Err(Refusal::Stream),
    };
    let record = match kind {
        kind::ENTRY => Record::Entry(
            stream,
            Entry {
                start: u32_at(fields, 2),
                end: u32_at(fields, 6),
                key: u32_at(fields, 10),
                value: u32_at(fields, 14),
            },
        ),
        kind::MARK => Record::Mark(stream, u32_at(fields, 2)),
        _ => Record::Close(stream),
    };
    Ok((record, whole))
}

/// The bytes of a record. A note over 64 bytes is refused with 10.
pub fn writing(record: &Record) -> Result<Vec<u8>, Refusal> {
    let mut fields = Vec::new();
    let kind = match record {
        Record::Entry(stream, entry) => {
            fields.extend((*stream as u16).to_le_bytes());
            for number in [entry.start, entry.end, entry.key, entry.value] {
                fields.extend(number.to_le_bytes());
            }
            kind::ENTRY
        }
        Record::Mark(stream, time) => {
            fields.extend((*stream as u16).to_le_bytes());
            fields.extend(time.to_le_bytes());
            kind::MARK
        }
        Record::Close(stream) => {
            fields.extend((*stream as u16).to_le_bytes());
            kind::CLOSE
        }
        Record::Note(text) => {
            if text.len() > NOTE_LIMIT {
                return Err(Refusal::Length);
            }
            fields.extend(text);
            kind::NOTE
        }
    };
    let length = 2 + fields.len() as u16;
    let mut bytes = length.to_le_bytes().to_vec();
    bytes.extend(kind.to_le_bytes());
    bytes.extend(fields);
    Ok(bytes)
}

#[cfg(test)]
mod tests {
    use super::*;

    fn refusal(feed: &[u8]) -> u8 {
        match reading(feed, 0) {
            Reading::Refused(refusal, 0) => refusal.number(),
            other => panic!("{feed:02X?} gives {other:?}"),
        }
    }

    #[test]
    fn the_documents_bytes() {
        let mark = [0x08, 0x00, 0x02, 0x00, 0x01, 0x00, 0x1E, 0x00, 0x00, 0x00];
        let record = Record::Mark(Stream::B, 30);
        assert_eq!(reading(&mark, 0), Reading::Record(record.clone(), 10));
        assert_eq!(writing(&record), Ok(mark.to_vec()));
        assert_eq!(refusal(&[0x08]), 9);
        assert_eq!(refusal(&[0x00, 0x00]), 10);
    }

    #[test]
    fn every_record_reads_back() {
        let entry = Entry {
            start: 1,
            end: 0x0102_0304,
            key: u32::MAX,
            value: 0,
        };
        let mut records = vec![
            (Record::Entry(Stream::A, entry), 22),
            (Record::Entry(Stream::B, entry), 22),
            (Record::Mark(Stream::A, u32::MAX), 10),
            (Record::Close(Stream::A), 6),
            (Record::Close(Stream::B), 6),
        ];
        for size in 0..=NOTE_LIMIT {
            records.push((Record::Note(vec![size as u8; size]), 4 + size));
        }
        for (record, whole) in records {
            let bytes = writing(&record).unwrap();
            assert_eq!(bytes.len(), whole);
            assert_eq!(reading(&bytes, 0), Reading::Record(record, whole));
        }
        assert_eq!(writing(&Record::Note(vec![0; 65])), Err(Refusal::Length));
    }

    #[test]
    fn the_end_and_past_it() {
        assert_eq!(reading(&[], 0), Reading::End);
        assert_eq!(reading(&[4, 0, 3, 0, 0, 0], 6), Reading::End);
        assert_eq!(reading(&[4, 0, 3, 0, 0, 0], 7), Reading::End);
        assert_eq!(reading(&[], usize::MAX), Reading::End);
    }

    #[test]
    fn a_refusal_has_the_place_of_its_record() {
        let feed = [4, 0, 3, 0, 0, 0, 4, 0, 3, 0, 2, 0];
        let first = Reading::Record(Record::Close(Stream::A), 6);
        assert_eq!(reading(&feed, 0), first);
        assert_eq!(reading(&feed, 6), Reading::Refused(Refusal::Stream, 6));
    }

    #[test]
    fn the_checks_come_in_the_documents_order() {
        // length before a short feed
        assert_eq!(refusal(&[1, 0]), 10);
        assert_eq!(refusal(&[67, 0, 4, 0]), 10);
        assert_eq!(refusal(&[0xFF, 0xFF]), 10);
        // a short feed before the kind
        assert_eq!(refusal(&[2, 0]), 9);
        assert_eq!(refusal(&[4, 0, 9, 0, 0]), 9);
        // kind before the length for the kind
        assert_eq!(refusal(&[3, 0, 0, 0, 0]), 11);
        assert_eq!(refusal(&[2, 0, 5, 0]), 11);
        // the kind of a pair, and a known kind but for its high byte
        assert_eq!(refusal(&[2, 0, 1, 1]), 11);
        assert_eq!(refusal(&[2, 0, 4, 1]), 11);
        // length for the kind before the stream
        assert_eq!(refusal(&[2, 0, 1, 0]), 10);
        assert_eq!(refusal(&[5, 0, 3, 0, 2, 0, 0]), 10);
        assert_eq!(refusal(&[4, 0, 2, 0, 2, 0]), 10);
        // the stream last
        assert_eq!(refusal(&[4, 0, 3, 0, 0, 1]), 1);
        assert_eq!(refusal(&[4, 0, 3, 0, 0xFF, 0xFF]), 1);
    }

    #[test]
    fn intervals_are_not_judged_here() {
        let entry = Entry {
            start: 9,
            end: 3,
            key: 0,
            value: 0,
        };
        let bytes = writing(&Record::Entry(Stream::A, entry)).unwrap();
        let record = Record::Entry(Stream::A, entry);
        assert_eq!(reading(&bytes, 0), Reading::Record(record, 22));
    }
}
