//! The memory of a part as a file, which is replaced as a whole: old or new, never between.

use crate::fault::Fault;
use crate::identity::Identity;
use std::ffi::OsString;
use std::fs::{self, File, TryLockError};
use std::io::{self, ErrorKind, Write};
use std::os::unix::fs::{fchown, FileExt, MetadataExt};
use std::path::{Path, PathBuf};
use tempfile::TempDir;

/// How often a file that others make or replace while it is opened is opened again.
const TRIES: usize = 100;

/// What a new memory is called until it has its place.
const NEW: &str = "memory";

/// A memory file that no other run may use until this is dropped.
pub struct MemoryFile {
    path: PathBuf,
    locked: File,
    /// It was made for this run, and goes if the run comes to nothing.
    made: bool,
}

/// What became of it.
#[derive(Clone, Copy, PartialEq, Eq)]
pub enum Kept {
    Unchanged,
    Replaced,
}

impl MemoryFile {
    /// Takes the file, and makes it with zeros if there is none; what it holds.
    pub fn open(path: &Path, size: usize) -> Result<(MemoryFile, Vec<u8>), Fault> {
        let file = taken(path, size)?;
        let memory =
            bytes(&file.locked, size).map_err(Fault::because(cannot(&file.path, "read")))?;
        // A folder in which it cannot be replaced is told now, and not at the end of a long trace.
        beside(&file.path).map_err(Fault::because(cannot(&file.path, "replaced")))?;
        Ok((file, memory))
    }

    pub fn identity(&self) -> Option<Identity> {
        identity(&self.locked)
    }

    /// Puts the new memory in the place of the old one, unless they are the same.
    pub fn keep(mut self, before: &[u8], memory: &[u8]) -> Result<Kept, Fault> {
        if before == memory {
            self.made = false;
            return Ok(Kept::Unchanged);
        }
        let written = self.written(memory);
        let written = written.map_err(Fault::because(cannot(&self.path, "replaced")))?;
        if !self.still_named() {
            return Err(Fault::new(format!(
                "the memory file {} was moved or replaced while the run was at work, and is left alone",
                self.path.display()
            )));
        }
        let placed = fs::rename(written.path().join(NEW), &self.path);
        placed.map_err(Fault::because(cannot(&self.path, "replaced")))?;
        self.made = false;
        let path = self.path.display();
        let what = format!("the memory file {path} is replaced, but its folder cannot be synced");
        synced_folder(&self.path).map_err(Fault::because(what))?;
        Ok(Kept::Replaced)
    }

    /// The new memory on the disk, beside the old, with its owner and permissions.
    fn written(&self, memory: &[u8]) -> io::Result<TempDir> {
        let (folder, mut file) = beside(&self.path)?;
        let old = self.locked.metadata()?;
        // A user who may not give files away keeps the new one.
        let _ = fchown(&file, Some(old.uid()), Some(old.gid()));
        file.set_permissions(old.permissions())?;
        file.write_all(memory)?;
        file.sync_all()?;
        Ok(folder)
    }

    /// Whether the name is still that of the file that is locked: others may replace it or move it away.
    fn still_named(&self) -> bool {
        let named = fs::metadata(&self.path).ok();
        named.and_then(|it| Identity::of(&it)) == self.identity()
    }
}

impl Drop for MemoryFile {
    fn drop(&mut self) {
        if self.made && self.still_named() {
            let _ = fs::remove_file(&self.path);
        }
    }
}

/// What the file holds, where it is only to be read, and which it is; zeros if there is none.
pub fn contents(path: &Path, size: usize) -> Result<(Vec<u8>, Option<Identity>), Fault> {
    match fs::metadata(path) {
        Err(error) if error.kind() == ErrorKind::NotFound => return Ok((vec![0; size], None)),
        other => fits(path, other, size)?,
    }
    let opened = File::open(path).and_then(|file| Ok((bytes(&file, size)?, identity(&file))));
    opened.map_err(Fault::because(cannot(path, "read")))
}

/// The file, of the right length and locked, by the name that it has behind all links.
fn taken(path: &Path, size: usize) -> Result<MemoryFile, Fault> {
    for _ in 0..TRIES {
        let path = behind_links(path);
        let file = match File::options().read(true).write(true).open(&path) {
            Err(error) if error.kind() == ErrorKind::NotFound => {
                match made(&path, size).map_err(Fault::because(cannot(&path, "made")))? {
                    Some(file) => return Ok(file),
                    None => continue,
                }
            }
            other => other.map_err(Fault::because(cannot(&path, "opened")))?,
        };
        fits(&path, file.metadata(), size)?;
        lock(&path, &file)?;
        let (locked, made) = (file, false);
        let file = MemoryFile { path, locked, made };
        if file.still_named() {
            return Ok(file);
        }
    }
    let path = path.display();
    Err(Fault::new(format!(
        "the memory file {path} is made or replaced by others all the time"
    )))
}

/// A memory of zeros, locked; none if somebody else makes the file first.
fn made(path: &Path, size: usize) -> io::Result<Option<MemoryFile>> {
    let (folder, mut locked) = beside(path)?;
    locked.write_all(&vec![0; size])?;
    locked.sync_all()?;
    locked.lock()?;
    match fs::hard_link(folder.path().join(NEW), path) {
        Err(error) if error.kind() == ErrorKind::AlreadyExists => return Ok(None),
        linked => linked?,
    }
    let (path, made) = (path.to_path_buf(), true);
    let file = MemoryFile { path, locked, made };
    synced_folder(&file.path)?;
    Ok(Some(file))
}

/// A new file in a folder of its own beside this one. The folder goes as it is dropped.
fn beside(path: &Path) -> io::Result<(TempDir, File)> {
    let mut name = OsString::from(".");
    name.push(path.file_name().unwrap_or_default());
    name.push(".sildrokk-");
    let folder = tempfile::Builder::new()
        .prefix(&name)
        .tempdir_in(folder_of(path))?;
    let new = folder.path().join(NEW);
    let file = File::options()
        .read(true)
        .write(true)
        .create_new(true)
        .open(new)?;
    Ok((folder, file))
}

/// Takes the file for this run. The lock goes with the process.
fn lock(path: &Path, file: &File) -> Result<(), Fault> {
    match file.try_lock() {
        Ok(()) => Ok(()),
        Err(TryLockError::Error(error)) => Err(Fault::because(cannot(path, "locked"))(error)),
        Err(TryLockError::WouldBlock) => {
            let path = path.display();
            Err(Fault::new(format!(
                "another run is at work on the memory file {path}"
            )))
        }
    }
}

/// Tests that it is a plain file as long as the part's memory.
fn fits(path: &Path, data: io::Result<fs::Metadata>, size: usize) -> Result<(), Fault> {
    let data = data.map_err(Fault::because(cannot(path, "read")))?;
    let (path, length) = (path.display(), data.len());
    if !data.is_file() {
        return Err(Fault::new(format!(
            "the memory file {path} is not a plain file"
        )));
    }
    if length != size as u64 {
        return Err(Fault::new(format!(
            "3: the memory file {path} has {length} bytes, and the part has {size}"
        )));
    }
    Ok(())
}

/// The name without links, also where the last one leads to a file that is not there yet.
fn behind_links(path: &Path) -> PathBuf {
    let real = fs::canonicalize(path);
    let linked = || fs::read_link(path).map(|to| folder_of(path).join(to));
    real.or_else(|_| linked()).unwrap_or(path.to_path_buf())
}

fn bytes(file: &File, size: usize) -> io::Result<Vec<u8>> {
    let mut memory = vec![0; size];
    file.read_exact_at(&mut memory, 0)?;
    Ok(memory)
}

fn identity(file: &File) -> Option<Identity> {
    file.metadata().ok().and_then(|it| Identity::of(&it))
}

/// A file's new name is on the disk only once its folder is.
fn synced_folder(path: &Path) -> io::Result<()> {
    File::open(folder_of(path))?.sync_all()
}

fn folder_of(path: &Path) -> &Path {
    match path.parent() {
        Some(folder) if folder != Path::new("") => folder,
        _ => Path::new("."),
    }
}

fn cannot(path: &Path, done: &str) -> String {
    format!("the memory file {} cannot be {done}", path.display())
}
