//! Measures joinfeed against `baseline.c`, a plain C program that does the same
//! job without proofs, on the same feeds and in the same run. It prints the
//! tables of docs/PERFORMANCE.md and draws docs/performance.svg.

#[cfg(test)]
mod against_second;
mod compare;
mod counter;
mod feeds;
mod folder;
mod kit;
mod plot;
mod room;
mod table;
mod time;

use counter::Counter;
use feeds::KINDS;
use folder::Folder;
use kit::{Kit, Program};
use std::path::{Path, PathBuf};
use std::process::{Command, ExitCode, Stdio};
use time::Times;

/// How many records the feeds of a kind have, and how often each is timed.
const SIZES: [(u32, u32); 4] = [(1_000, 200), (10_000, 100), (100_000, 40), (2_000_000, 12)];

const USAGE: &str = "\
give nothing, to measure joinfeed, or the path of one program to measure in its place";

/// What was measured on one feed. Of two numbers the first is joinfeed's, the
/// second the baseline's.
pub struct Row {
    pub feed: &'static str,
    pub records: u32,
    pub bytes_in: u64,
    pub bytes_out: u64,
    pub times: Times,
    /// Executed, less those for an empty feed; None where they are not counted.
    pub instructions: Option<[u64; 2]>,
    /// The greatest resident size in bytes.
    pub rooms: [u64; 2],
}

/// The two programs, and what is the same for all feeds.
pub struct Bench {
    programs: [Program; 2],
    counter: Counter,
    empty: PathBuf,
    /// Executed for an empty feed.
    instructions: Option<[u64; 2]>,
}

fn main() -> ExitCode {
    match measure_all() {
        Ok(()) => ExitCode::SUCCESS,
        Err(told) => {
            eprintln!("bench: {told}");
            ExitCode::FAILURE
        }
    }
}

fn measure_all() -> Result<(), String> {
    let root = root();
    let kit = Kit::find()?;
    let folder = Folder::fresh()?;
    let joinfeed = Program::new(&kit, &measured(&root)?);
    let baseline = kit.build(&root.join("bench/baseline.c"), folder.path())?;
    let programs = [joinfeed, Program::new(&kit, &baseline)];
    let bench = Bench::new(programs, Counter::find(&kit), &folder)?;

    let mut rows = Vec::new();
    for kind in &KINDS {
        for (records, times) in SIZES {
            eprintln!("{}, {records} records", kind.name);
            let feed = folder.write("feed", &kind.feed(records))?;
            let row = bench.row(kind.name, &feed, records, times);
            rows.push(row.inspect_err(|_| folder.keep())?);
        }
    }

    print!("{}", table::tables(&bench, &rows));
    let plot = root.join("docs/performance.svg");
    std::fs::write(&plot, plot::svg(&bench.names(), &rows))
        .map_err(|error| format!("{} cannot be written ({error})", plot.display()))
}

/// The repository, which this package is a folder of.
fn root() -> PathBuf {
    let package = Path::new(env!("CARGO_MANIFEST_DIR"));
    package.parent().unwrap_or(package).to_path_buf()
}

/// The program to measure.
fn measured(root: &Path) -> Result<PathBuf, String> {
    let mut arguments = std::env::args_os().skip(1);
    let program = match (arguments.next(), arguments.next()) {
        (None, _) => joinfeed(root)?,
        (Some(path), None) => PathBuf::from(path),
        (Some(_), Some(_)) => return Err(USAGE.to_string()),
    };
    program
        .canonicalize()
        .map_err(|error| format!("there is no program {} ({error})", program.display()))
}

/// joinfeed, proved and built first where that was not done.
fn joinfeed(root: &Path) -> Result<PathBuf, String> {
    let joinfeed = root.join("crates/joinfeed");
    let program = joinfeed.join("out/joinfeed");
    if !program.exists() {
        eprintln!("joinfeed is proved and built first, which takes some minutes");
        // rt builds a program to run it: here on no feed.
        let built = Command::new("rt")
            .arg("run")
            .current_dir(joinfeed)
            .stdin(Stdio::null())
            .stdout(Stdio::null())
            .stderr(Stdio::null())
            .status();
        if !built.is_ok_and(|status| status.success()) {
            return Err("joinfeed cannot be built; bin/joinfeed shows why".to_string());
        }
    }
    Ok(program)
}

impl Bench {
    fn new(programs: [Program; 2], counter: Counter, folder: &Folder) -> Result<Bench, String> {
        let empty = folder.write("empty", &[])?;
        Ok(Bench {
            instructions: counter.count_both(&programs, &empty)?,
            programs,
            counter,
            empty,
        })
    }

    fn names(&self) -> [String; 2] {
        [self.programs[0].name(), self.programs[1].name()]
    }

    fn row(
        &self,
        name: &'static str,
        feed: &Path,
        records: u32,
        times: u32,
    ) -> Result<Row, String> {
        let printed = compare::both(&self.programs, feed)?;
        printed.ends_with_done(records)?;
        let [joinfeed, baseline] = &self.programs;
        Ok(Row {
            feed: name,
            records,
            bytes_in: folder::size(feed)?,
            bytes_out: printed.bytes,
            times: time::least(&self.programs, &self.empty, feed, times)?,
            instructions: self.instructions(feed, records)?,
            rooms: [
                room::greatest(joinfeed, feed)?,
                room::greatest(baseline, feed)?,
            ],
        })
    }

    fn instructions(&self, feed: &Path, records: u32) -> Result<Option<[u64; 2]>, String> {
        if records > self.counter.most_records() {
            return Ok(None);
        }
        let counted = self.counter.count_both(&self.programs, feed)?;
        Ok(counted
            .zip(self.instructions)
            .map(|(all, start)| [0, 1].map(|which| all[which].saturating_sub(start[which]))))
    }
}
