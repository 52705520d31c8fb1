//! How many instructions a run executes, whatever else the machine does.

use crate::kit::{in_path, quiet, Kit, Program};
use std::fs::File;
use std::path::{Path, PathBuf};
use std::process::{Command, Stdio};

/// What counts them.
pub enum Counter {
    /// The kit's emulator, which programs run under where it is there.
    Emulator,
    Perf(PathBuf),
    Valgrind(PathBuf),
    Nothing,
}

impl Counter {
    pub fn find(kit: &Kit) -> Counter {
        if kit.emulator().is_some() {
            return Counter::Emulator;
        }
        match (in_path("perf"), in_path("valgrind")) {
            (Some(perf), _) if counts(&perf) => Counter::Perf(perf),
            (_, Some(valgrind)) => Counter::Valgrind(valgrind),
            _ => Counter::Nothing,
        }
    }

    pub fn says(&self) -> &'static str {
        match self {
            Counter::Emulator => "instructions counted by the kit's emulator",
            Counter::Perf(_) => "instructions counted by perf",
            Counter::Valgrind(_) => "instructions counted by valgrind (cachegrind)",
            Counter::Nothing => "instructions not counted: there is neither perf nor valgrind here",
        }
    }

    /// The largest feed that is counted in reasonable time.
    pub fn most_records(&self) -> u32 {
        match self {
            Counter::Perf(_) => u32::MAX,
            _ => 20_000,
        }
    }

    pub fn count_both(
        &self,
        programs: &[Program; 2],
        feed: &Path,
    ) -> Result<Option<[u64; 2]>, String> {
        let [x, y] = programs;
        Ok(self
            .count(x, feed)?
            .zip(self.count(y, feed)?)
            .map(<[u64; 2]>::from))
    }

    fn count(&self, program: &Program, feed: &Path) -> Result<Option<u64>, String> {
        let (mut command, read): (Command, fn(&str) -> Option<u64>) = match self {
            Counter::Emulator => (under_emulator(program), of_emulator),
            Counter::Perf(perf) => (under_perf(perf, program.words()), of_perf),
            Counter::Valgrind(valgrind) => (under_valgrind(valgrind, program), of_valgrind),
            Counter::Nothing => return Ok(None),
        };
        let input = File::open(feed).map_err(|error| format!("{} {error}", feed.display()))?;
        let done = command.stdin(input).stderr(Stdio::piped()).output();
        let done = done.map_err(|error| program.fails(format!("is not counted ({error})")))?;
        let told = String::from_utf8_lossy(&done.stderr);
        match read(&told) {
            Some(count) if done.status.success() => Ok(Some(count)),
            _ => Err(program.fails(format!("is not counted ({}):\n{told}", done.status))),
        }
    }
}

/// Not every machine lets perf count.
fn counts(perf: &Path) -> bool {
    let nothing = [PathBuf::from("true")];
    match under_perf(perf, &nothing).stderr(Stdio::piped()).output() {
        Ok(done) => of_perf(&String::from_utf8_lossy(&done.stderr)).is_some(),
        Err(_) => false,
    }
}

fn under_perf(perf: &Path, words: &[PathBuf]) -> Command {
    let mut command = Command::new(perf);
    command.args(["stat", "-x", ";", "-e", "instructions:u", "--"]);
    command.args(words).stdout(Stdio::null());
    command
}

/// `123456;;instructions:u;...`
fn of_perf(told: &str) -> Option<u64> {
    let line = told.lines().find(|line| line.contains("instructions:u"))?;
    line.split(';').next()?.parse().ok()
}

fn under_valgrind(valgrind: &Path, program: &Program) -> Command {
    let options = "--tool=cachegrind --cache-sim=no --cachegrind-out-file=/dev/null";
    let mut words = vec![valgrind.to_path_buf()];
    words.extend(options.split(' ').map(PathBuf::from));
    words.extend(program.words().iter().cloned());
    quiet(&words)
}

/// `==1234== I   refs:      126,119`
fn of_valgrind(told: &str) -> Option<u64> {
    let line = told.lines().find(|line| line.contains(" refs:"))?;
    let count = line.rsplit(':').next()?.trim().replace(',', "");
    count.parse().ok()
}

/// It tells of every block that it executes, and a block is one instruction.
fn under_emulator(program: &Program) -> Command {
    let options = ["-one-insn-per-tb", "-d", "exec,nochain"];
    let mut words = program.words().to_vec();
    words.splice(1..1, options.map(PathBuf::from));
    quiet(&words)
}

fn of_emulator(told: &str) -> Option<u64> {
    match told
        .lines()
        .filter(|line| line.starts_with("Trace"))
        .count()
    {
        0 => None,
        count => Some(count as u64),
    }
}

#[cfg(test)]
mod tests {
    use super::*;

    #[test]
    fn what_perf_tells() {
        assert_eq!(of_perf("123456;;instructions:u;90;100.00;;"), Some(123456));
        assert_eq!(of_perf("<not supported>;;instructions:u;0;100.00;;"), None);
        assert_eq!(of_perf("no permission"), None);
    }

    #[test]
    fn what_valgrind_tells() {
        let told = "==7== Command: joinfeed\n==7== \n==7== I   refs:      1,126,119\n";
        assert_eq!(of_valgrind(told), Some(1_126_119));
        assert_eq!(of_valgrind("==7== I refs:        42\n"), Some(42));
        assert_eq!(of_valgrind("valgrind: no such tool\n"), None);
    }

    #[test]
    fn what_the_emulator_tells() {
        let told = "Trace 0: 0x7f [00/00]\nTrace 0: 0x80 [00/00]\nStopped execution\n";
        assert_eq!(of_emulator(told), Some(2));
        assert_eq!(of_emulator("qemu: no such file\n"), None);
    }
}
