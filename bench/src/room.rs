//! The greatest resident size of a run, as the system keeps it (VmHWM).
//!
//! The feed comes through a pipe that stays open. Once the program has read all
//! of it and sleeps, waiting for more, its greatest size is there to be read.

use crate::kit::Program;
use std::fs;
use std::io::Write;
use std::path::Path;
use std::process::{Child, Stdio};
use std::thread::sleep;
use std::time::{Duration, Instant};

/// No program takes longer over what a pipe holds.
const PATIENCE: Duration = Duration::from_secs(60);

/// In bytes.
pub fn greatest(program: &Program, feed: &Path) -> Result<u64, String> {
    let feed = fs::read(feed).map_err(|error| format!("{} {error}", feed.display()))?;
    let mut child = program
        .command()
        .stdin(Stdio::piped())
        .spawn()
        .map_err(|error| program.fails(format!("does not start ({error})")))?;
    let room = give(&mut child, &feed).and_then(|()| resident(child.id()));
    drop(child.stdin.take());
    child.wait().map_err(|error| program.fails(error))?;
    room.map_err(|told| program.fails(told))
}

/// Gives a program its feed, and waits until it wants more.
fn give(child: &mut Child, feed: &[u8]) -> Result<(), String> {
    let input = child.stdin.as_mut().ok_or("has no standard input")?;
    input
        .write_all(feed)
        .map_err(|error| format!("stopped reading its feed ({error})"))?;
    let began = Instant::now();
    while began.elapsed() < PATIENCE {
        sleep(Duration::from_millis(5));
        if state(child.id())? == "S" {
            return Ok(());
        }
    }
    Err("did not read its feed to the end".to_string())
}

/// S for a process that sleeps: the third word, behind the name in brackets.
fn state(process: u32) -> Result<String, String> {
    let stat = proc(process, "stat")?;
    let behind_name = stat.rsplit(')').next().unwrap_or_default();
    let state = behind_name.split_whitespace().next();
    Ok(state.unwrap_or_default().to_string())
}

fn resident(process: u32) -> Result<u64, String> {
    let status = proc(process, "status")?;
    kilobytes(&status, "VmHWM:")
        .map(|count| count * 1024)
        .ok_or("has no VmHWM in /proc; this needs Linux".to_string())
}

fn kilobytes(status: &str, name: &str) -> Option<u64> {
    let line = status.lines().find_map(|line| line.strip_prefix(name))?;
    line.trim().strip_suffix(" kB")?.parse().ok()
}

fn proc(process: u32, file: &str) -> Result<String, String> {
    fs::read_to_string(format!("/proc/{process}/{file}"))
        .map_err(|error| format!("cannot be looked at in /proc ({error}); this needs Linux"))
}

#[cfg(test)]
mod tests {
    use super::*;

    #[test]
    fn a_line_of_status() {
        let status = "VmPeak:\t    2828 kB\nVmHWM:\t    1536 kB\nVmRSS:\t 8 kB\n";
        assert_eq!(kilobytes(status, "VmHWM:"), Some(1536));
        assert_eq!(kilobytes(status, "VmSwap:"), None);
    }
}
