//! Which file a name or an open file really is, so that none is used for two things at once.

use crate::fault::Fault;
use std::fs::Metadata;
use std::os::unix::fs::MetadataExt;

/// A plain file behind all its names.
#[derive(Clone, Copy, PartialEq, Eq)]
pub struct Identity(u64, u64);

impl Identity {
    /// None for what is not a plain file: a terminal or a pipe may well be used twice.
    pub fn of(data: &Metadata) -> Option<Identity> {
        data.is_file().then(|| Identity(data.dev(), data.ino()))
    }
}

/// The files that a command has opened so far, with what each is for.
#[derive(Default)]
pub struct InUse(Vec<(Identity, &'static str)>);

impl InUse {
    /// Adds a file, unless it is one of them already.
    pub fn add(&mut self, identity: Option<Identity>, what: &'static str) -> Result<(), Fault> {
        let Some(identity) = identity else {
            return Ok(());
        };
        if let Some((_, other)) = self.0.iter().find(|(it, _)| *it == identity) {
            return Err(Fault::new(format!("{what} and {other} are the same file")));
        }
        self.0.push((identity, what));
        Ok(())
    }
}
