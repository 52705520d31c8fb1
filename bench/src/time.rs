//! The time of a run, from its start to its end, printing to nowhere.

use crate::kit::Program;
use std::fs::File;
use std::path::Path;
use std::time::{Duration, Instant};

/// The least times of two programs.
pub struct Times {
    /// For an empty feed: starting and ending.
    pub start: [Duration; 2],
    /// For a feed, less that for an empty one.
    pub work: [Duration; 2],
}

/// Both programs take turns on an empty feed and on a feed, so that what else
/// the machine does falls on all alike.
pub fn least(
    programs: &[Program; 2],
    empty: &Path,
    feed: &Path,
    times: u32,
) -> Result<Times, String> {
    let mut start = [Duration::MAX; 2];
    let mut whole = [Duration::MAX; 2];
    for _ in 0..times {
        for (which, program) in programs.iter().enumerate() {
            start[which] = once(program, empty)?.min(start[which]);
            whole[which] = once(program, feed)?.min(whole[which]);
        }
    }
    let work = [0, 1].map(|which| whole[which].saturating_sub(start[which]));
    Ok(Times { start, work })
}

fn once(program: &Program, feed: &Path) -> Result<Duration, String> {
    let input = File::open(feed).map_err(|error| format!("{} {error}", feed.display()))?;
    let mut command = program.command();
    command.stdin(input);
    let began = Instant::now();
    let ended = command.status();
    let took = began.elapsed();
    match ended {
        Ok(status) if status.success() => Ok(took),
        Ok(status) => Err(program.fails(format!("ended with {status}; run it on a feed by hand"))),
        Err(error) => Err(program.fails(format!("does not start ({error})"))),
    }
}
