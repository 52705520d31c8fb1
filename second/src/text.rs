//! Text lines into a feed and a feed into text lines, so that a person can
//! write and read one by hand.
//!
//! One record a line:
//!
//! ```text
//! # a comment
//! entry A 10 50 7 100
//! mark B 30
//! close A
//! note some text
//! raw 08 00 02
//! ```

use crate::records::{reading, writing, Reading, Record};
use crate::rules::{Entry, Stream};

const KNOWN_LINES: &str = "write `entry A 10 50 7 100` (journal, start, end, key, value), \
     `mark B 30`, `close A`, `note some text`, `raw 08 00 02`, or # before a comment";

/// The feed that text lines stand for, or what is wrong with the first bad line.
pub fn feed_of_text(text: &[u8]) -> Result<Vec<u8>, String> {
    let mut feed = Vec::new();
    for (number, line) in (1..).zip(text.split(|byte| *byte == b'\n')) {
        let bytes = bytes_of_line(line).map_err(|told| format!("line {number}: {told}"))?;
        feed.extend(bytes);
    }
    Ok(feed)
}

fn bytes_of_line(line: &[u8]) -> Result<Vec<u8>, String> {
    let line = line.strip_suffix(b"\r").unwrap_or(line);
    let line = std::str::from_utf8(line)
        .map_err(|_| "it is not UTF-8 text; write such bytes as `raw` and hex".to_string())?
        .trim_start();
    if line.is_empty() || line.starts_with('#') {
        return Ok(Vec::new());
    }
    let (word, rest) = line.split_once([' ', '\t']).unwrap_or((line, ""));
    let fields: Vec<&str> = rest.split_whitespace().collect();
    let record = match word {
        "entry" => entry_of(&fields)?,
        "mark" => mark_of(&fields)?,
        "close" => close_of(&fields)?,
        "note" => Record::Note(rest.as_bytes().to_vec()),
        "raw" => return raw_of(&fields),
        _ => return Err(format!("`{word}` begins no line; {KNOWN_LINES}")),
    };
    writing(&record).map_err(|_| {
        format!(
            "a note has at most 64 bytes and this one {}; shorten it or write two",
            rest.len()
        )
    })
}

fn entry_of(fields: &[&str]) -> Result<Record, String> {
    let [journal, start, end, key, value] = fields else {
        return Err(wrong_count(
            fields,
            "an entry has 5 fields; write `entry JOURNAL START END KEY VALUE` \
             as `entry A 10 50 7 100`",
        ));
    };
    Ok(Record::Entry(
        stream_of(journal)?,
        Entry {
            start: number_of("start", start)?,
            end: number_of("end", end)?,
            key: number_of("key", key)?,
            value: number_of("value", value)?,
        },
    ))
}

fn mark_of(fields: &[&str]) -> Result<Record, String> {
    let [journal, time] = fields else {
        return Err(wrong_count(
            fields,
            "a mark has 2 fields; write `mark JOURNAL TIME` as `mark B 30`",
        ));
    };
    Ok(Record::Mark(stream_of(journal)?, number_of("time", time)?))
}

fn close_of(fields: &[&str]) -> Result<Record, String> {
    let [journal] = fields else {
        return Err(wrong_count(
            fields,
            "a close has 1 field; write `close JOURNAL` as `close A`",
        ));
    };
    Ok(Record::Close(stream_of(journal)?))
}

fn raw_of(fields: &[&str]) -> Result<Vec<u8>, String> {
    if fields.is_empty() {
        return Err("no byte follows `raw`; write them in hex as `raw 08 00 02`".to_string());
    }
    fields
        .iter()
        .map(|field| {
            let is_hex = field.len() == 2 && field.bytes().all(|byte| byte.is_ascii_hexdigit());
            match u8::from_str_radix(field, 16) {
                Ok(byte) if is_hex => Ok(byte),
                _ => Err(format!(
                    "`{field}` is no byte; write each as two hex digits, as `raw 08 00 02`"
                )),
            }
        })
        .collect()
}

fn wrong_count(fields: &[&str], expected: &str) -> String {
    format!("{} fields stand here; {expected}", fields.len())
}

fn stream_of(field: &str) -> Result<Stream, String> {
    match field {
        "A" => Ok(Stream::A),
        "B" => Ok(Stream::B),
        _ => Err(format!("`{field}` is no journal; write A or B")),
    }
}

fn number_of(name: &str, field: &str) -> Result<u32, String> {
    let is_digits = field.bytes().all(|byte| byte.is_ascii_digit());
    match field.parse() {
        Ok(number) if is_digits => Ok(number),
        _ => Err(format!(
            "the {name} `{field}` is no number of a feed; write one from 0 to 4294967295"
        )),
    }
}

/// The text lines of a feed. What cannot be read as a record, and a note that
/// does not show as one line of text, stands as bytes behind `raw`; so
/// `feed_of_text` gives the same feed again, whatever its bytes.
pub fn text_of_feed(feed: &[u8]) -> String {
    let mut text = String::new();
    let mut place = 0;
    loop {
        let line = match reading(feed, place) {
            Reading::End => return text,
            Reading::Refused(_, place) => {
                text.push_str(&raw_line(&feed[place..]));
                return text;
            }
            Reading::Record(record, next) => {
                let bytes = &feed[place..next];
                place = next;
                line_of_record(&record, bytes)
            }
        };
        text.push_str(&line);
    }
}

fn line_of_record(record: &Record, bytes: &[u8]) -> String {
    match record {
        Record::Entry(
            stream,
            Entry {
                start,
                end,
                key,
                value,
            },
        ) => format!("entry {stream:?} {start} {end} {key} {value}\n"),
        Record::Mark(stream, time) => format!("mark {stream:?} {time}\n"),
        Record::Close(stream) => format!("close {stream:?}\n"),
        Record::Note(note) if note.is_empty() => "note\n".to_string(),
        Record::Note(note) => match std::str::from_utf8(note) {
            Ok(note) if !note.contains(char::is_control) => format!("note {note}\n"),
            _ => raw_line(bytes),
        },
    }
}

fn raw_line(bytes: &[u8]) -> String {
    let hex: String = bytes.iter().map(|byte| format!(" {byte:02X}")).collect();
    format!("raw{hex}\n")
}

#[cfg(test)]
mod tests {
    use super::*;
    use crate::chance::Chance;
    use crate::joinfeed::joinfeed;
    use crate::make::{example_of_the_document, feeds, Made};

    fn told(text: &str) -> String {
        feed_of_text(text.as_bytes()).unwrap_err()
    }

    #[test]
    fn the_documents_mark() {
        let feed = feed_of_text(b"mark B 30").unwrap();
        assert_eq!(feed, [0x08, 0, 0x02, 0, 0x01, 0, 0x1E, 0, 0, 0]);
        assert_eq!(text_of_feed(&feed), "mark B 30\n");
    }

    #[test]
    fn the_documents_example() {
        let text = "entry A 10 50 7 100\nentry B 20 30 7 5\nentry B 30 60 7 6\n\
                    entry A 50 70 7 101\nclose A\nclose B\n";
        assert_eq!(text_of_feed(&example_of_the_document()), text);
        assert_eq!(
            feed_of_text(text.as_bytes()).unwrap(),
            example_of_the_document()
        );
    }

    #[test]
    fn comments_blank_lines_and_line_ends() {
        let plain = feed_of_text(b"close A\nnote x\n").unwrap();
        let dressed = b"# first\r\n\r\n  close \t A \r\n\n   # more\nnote x";
        assert_eq!(feed_of_text(dressed).unwrap(), plain);
        assert_eq!(feed_of_text(b"").unwrap(), []);
    }

    #[test]
    fn notes_keep_their_spaces_and_what_is_no_line_is_raw() {
        for note in [
            "note",
            "note  two spaces before",
            "note after ",
            "note é",
            "note  ",
        ] {
            let feed = feed_of_text(note.as_bytes()).unwrap();
            assert_eq!(text_of_feed(&feed), format!("{note}\n"));
        }
        let feed = [4, 0, 4, 0, b'a', b'\n', 4, 0, 3, 0, 1, 0, 0xFF];
        let text = text_of_feed(&feed);
        assert_eq!(text, "raw 04 00 04 00 61 0A\nclose B\nraw FF\n");
        assert_eq!(feed_of_text(text.as_bytes()).unwrap(), feed);
    }

    #[test]
    fn a_bad_line_is_told_with_its_number_and_what_to_write() {
        let cases = [
            (
                "close A\nopen B",
                "line 2: `open` begins no line; write `entry A",
            ),
            (
                "entry A 1 2 3",
                "line 1: 4 fields stand here; an entry has 5",
            ),
            ("\n\nmark C 3", "line 3: `C` is no journal; write A or B"),
            (
                "mark A 4294967296",
                "line 1: the time `4294967296` is no number",
            ),
            ("mark A +3", "line 1: the time `+3` is no number"),
            ("entry A -1 2 3 4", "line 1: the start `-1` is no number"),
            ("close", "line 1: 0 fields stand here; a close has 1"),
            ("raw", "line 1: no byte follows `raw`"),
            ("raw 8", "line 1: `8` is no byte"),
            ("raw +8", "line 1: `+8` is no byte"),
            ("raw 0G", "line 1: `0G` is no byte"),
        ];
        for (text, begin) in cases {
            assert!(told(text).starts_with(begin), "{text}: {}", told(text));
        }
        let long = format!("note {}", "x".repeat(65));
        assert!(told(&long).starts_with("line 1: a note has at most 64 bytes and this one 65"));
        let not_utf8 = feed_of_text(b"note \xFF").unwrap_err();
        assert!(not_utf8.starts_with("line 1: it is not UTF-8"));
    }

    #[test]
    fn made_feeds_turn_into_text_and_back() {
        for Made { kind, feed, .. } in feeds(5, 3000) {
            let text = text_of_feed(&feed);
            assert_eq!(feed_of_text(text.as_bytes()).unwrap(), feed, "{kind}");
        }
    }

    #[test]
    fn any_bytes_turn_into_text_and_back() {
        let mut chance = Chance::new(3);
        for _ in 0..3000 {
            // Small numbers make many of them records.
            let size = chance.below(60);
            let feed: Vec<u8> = (0..size)
                .map(|_| chance.pick(&[0, 2, 4, 5, 10, 32, 200]))
                .collect();
            assert_eq!(feed_of_text(text_of_feed(&feed).as_bytes()).unwrap(), feed);
        }
    }

    #[test]
    fn the_evening_at_the_dome() {
        let text = include_bytes!("../../examples/evening.txt");
        let feed = include_bytes!("../../examples/evening.feed");
        assert_eq!(feed_of_text(text).unwrap(), feed);
        let printed = "500 1500 0 0 1 1 101 1\n\
                       3000 4000 0 1 1 1 101 2\n\
                       3500 6000 1 2 2 2 201 3\n\
                       4000 5000 2 1 1 1 102 2\n\
                       8000 9000 1 4 2 2 201 5\n\
                       8500 9000 2 5 1 1 102 6\n\
                       done 14 6\n";
        assert_eq!(joinfeed(feed), printed);
    }
}
