//! Folders of a test's own, and what it looks at in files.

use std::fs::{self, Metadata};
use std::os::unix::fs::MetadataExt;
use std::path::{Path, PathBuf};

/// A folder that is gone with the test.
pub struct Scratch(tempfile::TempDir);

impl Scratch {
    pub fn new() -> Scratch {
        Scratch(
            tempfile::Builder::new()
                .prefix("sildrokk-test")
                .tempdir()
                .expect("a folder"),
        )
    }

    pub fn folder(&self) -> &Path {
        self.0.path()
    }

    pub fn path(&self, name: &str) -> PathBuf {
        self.0.path().join(name)
    }

    /// A file of this name with these bytes.
    pub fn file(&self, name: &str, bytes: impl AsRef<[u8]>) -> PathBuf {
        let path = self.path(name);
        fs::write(&path, bytes).unwrap_or_else(|error| panic!("{}: {error}", path.display()));
        path
    }

    /// The names of all that is in it, sorted.
    pub fn names(&self) -> Vec<String> {
        names_in(self.folder())
    }
}

/// The names of all that is in a folder, sorted.
pub fn names_in(folder: &Path) -> Vec<String> {
    let entries = fs::read_dir(folder).expect("the folder");
    let name = |entry: std::io::Result<fs::DirEntry>| entry.expect("an entry").file_name();
    let mut names: Vec<String> = entries
        .map(|it| name(it).into_string().expect("a name"))
        .collect();
    names.sort();
    names
}

pub fn bytes_of(path: &Path) -> Vec<u8> {
    fs::read(path).unwrap_or_else(|error| panic!("{}: {error}", path.display()))
}

/// What tells whether a file was put in its place anew, or written.
#[derive(Clone, Debug, PartialEq, Eq)]
pub struct Stamp {
    inode: u64,
    written: (i64, i64),
    mode: u32,
}

pub fn stamp_of(path: &Path) -> Stamp {
    let metadata: Metadata = fs::metadata(path).expect("the file");
    Stamp {
        inode: metadata.ino(),
        written: (metadata.mtime(), metadata.mtime_nsec()),
        mode: metadata.mode(),
    }
}

pub fn text(path: &Path) -> &str {
    path.to_str().expect("a name in plain letters")
}

/// What a run that is killed may leave beside its memory file: folders of the name that it gives them.
pub fn is_left_by_a_kill(name: &str, file: &str) -> bool {
    name.starts_with(&format!(".{file}.sildrokk-"))
}

/// The owner of a file, its group and its permissions.
pub fn rights_of(path: &Path) -> (u32, u32, u32) {
    let metadata = fs::metadata(path).expect("the file");
    (metadata.uid(), metadata.gid(), metadata.mode() & 0o7777)
}
