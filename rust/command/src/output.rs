//! A file that the command writes for somebody else: answers, a trace, a waveform.

use crate::fault::Fault;
use crate::identity::{Identity, InUse};
use std::fs::File;
use std::io::{self, BufWriter, Write};
use std::path::Path;

/// The file, or standard output for `-`.
pub struct Output {
    to: BufWriter<Box<dyn Write>>,
    name: String,
}

impl Output {
    /// Opens it, and empties it once it is known that it is none of the files in use.
    pub fn create(path: &Path, in_use: &mut InUse, what: &'static str) -> Result<Output, Fault> {
        if is_standard(path) {
            return Ok(Output::new(
                Box::new(io::stdout()),
                "standard output".into(),
            ));
        }
        let name = path.display().to_string();
        let opened = File::options()
            .write(true)
            .create(true)
            .truncate(false)
            .open(path);
        let opened = opened.and_then(|file| Ok((file.metadata()?, file)));
        let (data, file) = opened.map_err(Fault::because(cannot(&name)))?;
        in_use.add(Identity::of(&data), what)?;
        if data.is_file() {
            file.set_len(0).map_err(Fault::because(cannot(&name)))?;
        }
        Ok(Output::new(Box::new(file), name))
    }

    fn new(to: Box<dyn Write>, name: String) -> Output {
        let to = BufWriter::with_capacity(1 << 16, to);
        Output { to, name }
    }

    pub fn write(&mut self, bytes: &[u8]) -> Result<(), Fault> {
        let written = self.to.write_all(bytes);
        written.map_err(Fault::because(cannot(&self.name)))
    }

    pub fn finish(mut self) -> Result<(), Fault> {
        self.to.flush().map_err(Fault::because(cannot(&self.name)))
    }
}

fn cannot(name: &str) -> String {
    format!("{name} cannot be written")
}

pub fn is_standard(path: &Path) -> bool {
    path == Path::new("-")
}
