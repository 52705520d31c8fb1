//! The Rattle kit: its compiler, its linker, and how its programs are run.

use std::path::{Path, PathBuf};
use std::process::{Command, Stdio};

/// Programs of the kit are for x86-64 Linux, whatever machine it stands on.
const TARGET: &str = "x86_64-unknown-linux-gnu";

/// As the kit compiles joinfeed, with warnings on.
const FLAGS: [&str; 11] = [
    "--no-default-config",
    "-std=c23",
    "-march=x86-64",
    "-O3",
    "-fPIE",
    "-ffunction-sections",
    "-fdata-sections",
    "-Wall",
    "-Wextra",
    "-Wconversion",
    "-Werror",
];

pub struct Kit {
    folder: PathBuf,
}

impl Kit {
    pub fn find() -> Result<Kit, String> {
        let missing = "the Rattle kit is not found; put its `rt` into PATH";
        let rt = in_path("rt").ok_or(missing)?;
        let rt = rt.canonicalize().map_err(|_| missing)?;
        let kit = rt.ancestors().nth(2).ok_or(missing)?;
        Ok(Kit { folder: kit.into() })
    }

    fn toolchain(&self) -> PathBuf {
        self.folder.join("toolchain")
    }

    /// Where the machine is not x86-64, the emulator that programs run under.
    pub fn emulator(&self) -> Option<PathBuf> {
        let emulator = self.toolchain().join("bin/qemu-x86_64");
        emulator.is_file().then_some(emulator)
    }

    /// Builds a C program with the compiler and the linker that built joinfeed.
    pub fn build(&self, source: &Path, into: &Path) -> Result<PathBuf, String> {
        let program = into.join(source.file_stem().ok_or("the C program has no name")?);
        let object = program.with_extension("o");
        let mut compile = Command::new(self.toolchain().join("bin/clang"));
        compile.arg(format!("--target={TARGET}")).args(FLAGS);
        compile.arg("-c").arg(source).arg("-o").arg(&object);
        succeed(compile, source)?;
        let mut link = Command::new(self.folder.join("bin/rattle-link"));
        link.args(["--target", TARGET, "--toolchain"]);
        link.arg(self.toolchain());
        link.arg("-o").arg(&program).arg(&object);
        succeed(link, source)?;
        Ok(program)
    }

    /// The words that start a program as `rt` does.
    fn words(&self, program: &Path) -> Vec<PathBuf> {
        let lib = self.toolchain().join("lib");
        let mut words: Vec<PathBuf> = self.emulator().into_iter().collect();
        words.push(lib.join("ld-linux-x86-64.so.2"));
        words.push("--library-path".into());
        words.push(lib);
        words.push(program.into());
        words
    }
}

fn succeed(mut command: Command, source: &Path) -> Result<(), String> {
    let tool = command.get_program().to_string_lossy().into_owned();
    let done = command
        .output()
        .map_err(|error| format!("{tool} does not start ({error}); is the kit whole?"))?;
    if done.status.success() {
        return Ok(());
    }
    let told = String::from_utf8_lossy(&done.stderr);
    Err(format!("{tool} refuses {}:\n{told}", source.display()))
}

/// A program of the kit, and how it is run.
pub struct Program {
    path: PathBuf,
    words: Vec<PathBuf>,
}

impl Program {
    pub fn new(kit: &Kit, path: &Path) -> Program {
        Program {
            path: path.into(),
            words: kit.words(path),
        }
    }

    pub fn name(&self) -> String {
        let name = self.path.file_name().unwrap_or(self.path.as_os_str());
        name.to_string_lossy().into_owned()
    }

    /// The words that start it.
    pub fn words(&self) -> &[PathBuf] {
        &self.words
    }

    /// It runs with no environment and prints to nowhere, unless said.
    pub fn command(&self) -> Command {
        quiet(&self.words)
    }

    pub fn fails(&self, what: impl std::fmt::Display) -> String {
        format!("{} {what}", self.path.display())
    }
}

pub fn quiet(words: &[PathBuf]) -> Command {
    let mut command = Command::new(&words[0]);
    command.args(&words[1..]).env_clear();
    // joinfeed tells on standard error where a feed stopped that is not done, as the empty one.
    command.stdout(Stdio::null()).stderr(Stdio::null());
    command
}

/// The file of a command that stands in PATH.
pub fn in_path(name: &str) -> Option<PathBuf> {
    let path = std::env::var_os("PATH")?;
    std::env::split_paths(&path)
        .map(|folder| folder.join(name))
        .find(|file| file.is_file())
}
