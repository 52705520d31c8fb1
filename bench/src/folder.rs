//! A temporary folder, which goes away with its value unless it is to be kept.

use std::cell::Cell;
use std::fs;
use std::path::{Path, PathBuf};
use std::sync::atomic::{AtomicU32, Ordering};

pub struct Folder {
    path: PathBuf,
    kept: Cell<bool>,
}

impl Folder {
    pub fn fresh() -> Result<Folder, String> {
        static MADE: AtomicU32 = AtomicU32::new(0);
        let number = MADE.fetch_add(1, Ordering::Relaxed);
        let name = format!("joinfeed-bench-{}-{number}", std::process::id());
        let path = std::env::temp_dir().join(name);
        fs::create_dir(&path).map_err(|error| {
            format!(
                "{} cannot be made ({error}); set TMPDIR to a folder with 200 MB to spare",
                path.display()
            )
        })?;
        let kept = Cell::new(false);
        Ok(Folder { path, kept })
    }

    /// Leaves it there, for someone to look into.
    pub fn keep(&self) {
        self.kept.set(true);
    }

    pub fn path(&self) -> &Path {
        &self.path
    }

    pub fn write(&self, name: &str, bytes: &[u8]) -> Result<PathBuf, String> {
        let path = self.path.join(name);
        fs::write(&path, bytes).map_err(|error| {
            format!(
                "{} cannot be written ({error}); set TMPDIR to a folder with 200 MB to spare",
                path.display()
            )
        })?;
        Ok(path)
    }
}

impl Drop for Folder {
    fn drop(&mut self) {
        if self.kept.get() {
            return;
        }
        if let Err(error) = fs::remove_dir_all(&self.path) {
            eprintln!("{} is left over ({error})", self.path.display());
        }
    }
}

pub fn size(file: &Path) -> Result<u64, String> {
    match fs::metadata(file) {
        Ok(found) => Ok(found.len()),
        Err(error) => Err(format!("{} cannot be read ({error})", file.display())),
    }
}
