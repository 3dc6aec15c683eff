//! Where a trace is read from, and how it is split into pieces.

use crate::fault::Fault;
use crate::identity::{Identity, InUse};
use crate::output::is_standard;
use crate::progress::Watched;
use std::fs::File;
use std::io::{self, ErrorKind, Read};
use std::os::fd::AsFd;
use std::path::Path;

/// How many bytes are read at once. Nothing here grows with the length of a trace.
const PIECE: usize = 1 << 20;

/// A trace, in pieces.
pub struct Source {
    from: Watched<File>,
    name: String,
    buffer: Vec<u8>,
    /// The bytes of the buffer that are not played yet.
    held: usize,
}

impl Source {
    /// The file, or standard input for `-`.
    pub fn open(path: &Path, in_use: &mut InUse) -> Result<Source, Fault> {
        let (opened, name) = match is_standard(path) {
            true => (standard_input(), "standard input".to_string()),
            false => (File::open(path), path.display().to_string()),
        };
        let opened = opened.and_then(|file| Ok((file.metadata()?, file)));
        let (data, file) = opened.map_err(Fault::because(cannot(&name)))?;
        if data.is_dir() {
            return Err(Fault::new(format!("the trace {name} is a folder")));
        }
        in_use.add(Identity::of(&data), "the trace")?;
        let length = data.is_file().then_some(data.len());
        Ok(Source::new(file, length, name))
    }

    fn new(from: File, length: Option<u64>, name: String) -> Source {
        Source {
            from: Watched::new(from, length),
            name,
            buffer: vec![0; PIECE],
            held: 0,
        }
    }

    /// The bytes that are not played yet with some more behind them, and whether the trace ends there.
    pub fn piece(&mut self) -> Result<(&[u8], bool), Fault> {
        let read = loop {
            match self.from.read(&mut self.buffer[self.held..]) {
                Err(error) if error.kind() == ErrorKind::Interrupted => continue,
                other => break other,
            }
        };
        let read = read.map_err(Fault::because(cannot(&self.name)))?;
        self.held += read;
        Ok((&self.buffer[..self.held], read == 0))
    }

    /// Drops so many bytes from the front, since they are played. What is left is less than an event.
    pub fn played(&mut self, bytes: usize) {
        self.buffer.copy_within(bytes..self.held, 0);
        self.held -= bytes;
    }
}

/// Standard input as a file like any other.
fn standard_input() -> io::Result<File> {
    Ok(File::from(io::stdin().as_fd().try_clone_to_owned()?))
}

fn cannot(name: &str) -> String {
    format!("the trace {name} cannot be read")
}
