//! The baseline prints what the second program says, so that joinfeed is
//! measured against a program that does the whole job.

use crate::folder::Folder;
use crate::kit::{Kit, Program};
use crate::root;
use second::joinfeed::joinfeed;
use second::make::feeds;
use second::text::feed_of_text;
use std::fs::File;
use std::io::Write;
use std::process::Stdio;

struct Bench {
    folder: Folder,
    baseline: Program,
}

impl Bench {
    fn new() -> Bench {
        let (kit, folder) = (Kit::find().unwrap(), Folder::fresh().unwrap());
        let baseline = kit.build(&root().join("bench/baseline.c"), folder.path());
        Bench {
            baseline: Program::new(&kit, &baseline.unwrap()),
            folder,
        }
    }

    fn baseline(&self, feed: &[u8]) -> Vec<u8> {
        let feed = self.folder.write("feed", feed).unwrap();
        let mut command = self.baseline.command();
        let command = command.stdin(File::open(feed).unwrap());
        let done = command.stdout(Stdio::piped()).output().unwrap();
        assert!(done.status.success(), "{command:?} ended with {done:?}");
        done.stdout
    }
}

/// The feeds that joinfeed is compared on. The baseline joins by equal keys, as
/// joinfeed does, whatever the rule that a feed was made for.
#[test]
fn three_thousand_feeds() {
    let bench = Bench::new();
    for (number, made) in feeds(1, 3000).enumerate() {
        let printed = String::from_utf8(bench.baseline(&made.feed)).unwrap();
        assert_eq!(printed, joinfeed(&made.feed), "feed {number} of seed 1");
    }
}

/// With B closed no entry of A is wanted, so none is held.
#[test]
fn a_million_entries_and_one_more() {
    let bench = Bench::new();
    let mut feed = feed_of_text(b"close B").unwrap();
    let entry = feed_of_text(b"entry A 0 1 1 1").unwrap();
    feed.extend(entry.repeat(1_000_000));
    assert_eq!(bench.baseline(&feed), b"open 1000001 0\n");
    feed.extend(entry);
    assert_eq!(bench.baseline(&feed), b"refused 5 1000001\n");
}

/// Bytes beyond the first 4,294,967,295 are not read.
#[test]
fn the_feed_ends_at_the_read_limit() {
    let bench = Bench::new();
    // 4,294,967,295 is 63,161,283 notes of 68 bytes, and 51 bytes.
    let notes = [&[66, 0, 4, 0][..], &[b'.'; 64]].concat().repeat(1000);
    let printed_behind = |first: &[u8]| {
        let mut command = bench.baseline.command();
        let command = command.stdin(Stdio::piped()).stdout(Stdio::piped());
        let mut child = command.spawn().unwrap();
        let mut input = child.stdin.take().unwrap();
        input.write_all(first).unwrap();
        // It stops reading at the limit, which breaks the pipe.
        while input.write_all(&notes).is_ok() {}
        child.wait_with_output().unwrap().stdout
    };
    let note_of = |text: usize| [&[text as u8 + 2, 0, 4, 0][..], &vec![b'.'; text]].concat();
    assert_eq!(printed_behind(&note_of(46)), b"refused 9 63161284\n");
    assert_eq!(printed_behind(&note_of(47)), b"open 63161284 0\n");
    assert_eq!(printed_behind(&note_of(48)), b"refused 9 63161283\n");
}
