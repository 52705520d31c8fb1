//! Whether two programs print the same bytes of a feed.

use crate::kit::Program;
use std::fs::File;
use std::io::{self, BufRead, BufReader, Read};
use std::path::Path;
use std::process::{Child, Stdio};

/// No last line is longer.
const LAST_LINE_LIMIT: usize = 64;

/// What both programs printed.
#[derive(Debug)]
pub struct Printed {
    pub bytes: u64,
    last_line: String,
}

impl Printed {
    /// An error, unless the feed was accepted to its end and both journals closed.
    pub fn ends_with_done(&self, records: u32) -> Result<(), String> {
        if self.last_line.starts_with(&format!("done {records} ")) {
            return Ok(());
        }
        Err(format!(
            "a feed of {records} records gets the last line `{}`; it was to be accepted whole, so put its maker right",
            self.last_line
        ))
    }
}

/// Runs both programs on a feed, side by side, and compares what they print.
pub fn both(programs: &[Program; 2], feed: &Path) -> Result<Printed, String> {
    let [mut x, mut y] = [run(&programs[0], feed)?, run(&programs[1], feed)?];
    let printed = match (x.stdout.take(), y.stdout.take()) {
        (Some(x), Some(y)) => same(x, y),
        _ => Err("a program was started without a pipe to print to".to_string()),
    };
    for (program, child) in programs.iter().zip([&mut x, &mut y]) {
        // What it would still print is read by nobody when the two differ.
        let status = child.wait().map_err(|error| program.fails(error))?;
        if printed.is_ok() && !status.success() {
            return Err(program.fails(format!("ended with {status}")));
        }
    }
    printed.map_err(|told| {
        let names = [programs[0].name(), programs[1].name()].join(" and ");
        format!(
            "{names} differ on the feed {}: {told}; one of them is wrong, and `second join` says which",
            feed.display()
        )
    })
}

fn run(program: &Program, feed: &Path) -> Result<Child, String> {
    let input = File::open(feed).map_err(|error| format!("{} {error}", feed.display()))?;
    let mut command = program.command();
    let child = command.stdin(input).stdout(Stdio::piped()).spawn();
    child.map_err(|error| program.fails(format!("does not start ({error})")))
}

fn same(x: impl Read, y: impl Read) -> Result<Printed, String> {
    let (mut x, mut y) = (BufReader::new(x), BufReader::new(y));
    let mut bytes = 0;
    let mut tail = Vec::new();
    loop {
        let (of_x, of_y) = (stretch(&mut x)?, stretch(&mut y)?);
        if of_x.is_empty() && of_y.is_empty() {
            break;
        }
        let count = of_x.len().min(of_y.len());
        if count == 0 {
            return Err(format!("one prints {bytes} bytes, the other more"));
        }
        if let Some(at) = (0..count).find(|at| of_x[*at] != of_y[*at]) {
            return Err(format!("byte {} is not the same", bytes + at as u64));
        }
        tail.extend(&of_x[count.saturating_sub(LAST_LINE_LIMIT)..count]);
        tail.drain(..tail.len().saturating_sub(LAST_LINE_LIMIT));
        x.consume(count);
        y.consume(count);
        bytes += count as u64;
    }
    let tail = String::from_utf8_lossy(&tail);
    let last_line = tail.lines().last().unwrap_or_default().to_string();
    Ok(Printed { bytes, last_line })
}

/// What is printed next; empty at the end.
fn stretch(printed: &mut impl BufRead) -> Result<&[u8], String> {
    let stretch: io::Result<&[u8]> = printed.fill_buf();
    stretch.map_err(|error| format!("what is printed cannot be read ({error})"))
}

#[cfg(test)]
mod tests {
    use super::*;

    #[test]
    fn the_same_bytes_in_other_stretches() {
        let whole = "1 2\n".repeat(10_000) + "done 12 3\n";
        let (front, back) = whole.as_bytes().split_at(12_345);
        let printed = same(whole.as_bytes(), front.chain(back)).unwrap();
        assert_eq!(printed.bytes, 40_010);
        assert!(printed.ends_with_done(12).is_ok());
        assert!(printed.ends_with_done(1).is_err());
    }

    #[test]
    fn a_difference_is_told_by_its_place() {
        let told = |x: &str, y: &str| same(x.as_bytes(), y.as_bytes()).unwrap_err();
        assert_eq!(told("done 1 0", "done 1 1"), "byte 7 is not the same");
        assert_eq!(told("", "open"), "one prints 0 bytes, the other more");
        assert_eq!(told("open 1", "open"), "one prints 4 bytes, the other more");
    }

    #[test]
    fn a_refused_feed_is_no_feed_to_measure() {
        let printed = same(&b"refused 6 12\n"[..], &b"refused 6 12\n"[..]).unwrap();
        assert!(printed.ends_with_done(12).is_err());
    }
}
