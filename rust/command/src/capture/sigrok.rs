//! A capture as sigrok-cli reads it, in any of its formats.

use crate::fault::Fault;
use crate::identity::Identity;
use std::ffi::OsStr;
use std::fs::{self, File};
use std::io::{ErrorKind, Read};
use std::path::{Path, PathBuf};
use std::process::{Child, ChildStdout, Command, Stdio};
use tempfile::TempDir;

const PROGRAM: &str = "sigrok-cli";

/// What it says of a capture without a rate, which is no harm here.
const NO_RATE: &str = "Cannot set 'samplerate' to 0.";

/// A capture whose samples are being read.
pub struct Capture {
    /// The names of the digital channels. Each has a bit in a sample.
    pub channels: Vec<String>,
    /// How many bytes a sample has.
    pub unit: usize,
    /// How many samples there are, and how many were read.
    samples: u64,
    read: u64,
    reader: Child,
    from: ChildStdout,
    /// Where the capture stands in sigrok's own format. From there the samples come by themselves; of
    /// others sigrok-cli puts words before them.
    _folder: TempDir,
}

/// A capture in sigrok's own format.
struct Described {
    channels: Vec<String>,
    unit: usize,
    samples: u64,
    /// It has analog channels too.
    analog: bool,
}

impl Capture {
    pub fn open(file: &Path, format: Option<&str>) -> Result<Capture, Fault> {
        let folder = tempfile::tempdir().map_err(Fault::because("no folder for the capture"))?;
        let (own, described) = converted(file, format, folder.path())?;
        let mut reader = command(&own)
            .args(["-O", "binary"])
            .stdout(Stdio::piped())
            .stderr(Stdio::null())
            .spawn()
            .map_err(not_started)?;
        let from = reader.stdout.take().expect("a pipe");
        Ok(Capture {
            channels: described.channels,
            unit: described.unit,
            samples: described.samples,
            read: 0,
            reader,
            from,
            _folder: folder,
        })
    }

    /// Fills the buffer with whole samples as far as there are any; how many bytes these have.
    pub fn read(&mut self, buffer: &mut [u8]) -> Result<usize, Fault> {
        let mut filled = 0;
        while filled < buffer.len() {
            match self.from.read(&mut buffer[filled..]) {
                Ok(0) => break,
                Ok(read) => filled += read,
                Err(error) if error.kind() == ErrorKind::Interrupted => {}
                Err(error) => return Err(Fault::because("sigrok-cli was cut off")(error)),
            }
        }
        let whole = filled / self.unit;
        self.read += whole as u64;
        Ok(whole * self.unit)
    }

    /// Tells whether all samples came: sigrok-cli's own status does not.
    pub fn finish(mut self) -> Result<(), Fault> {
        let _ = self.reader.wait();
        let Capture { read, samples, .. } = self;
        match read == samples {
            true => Ok(()),
            false => Err(Fault::new(format!(
                "sigrok-cli gave {read} of {samples} samples"
            ))),
        }
    }
}

/// Which file it is; it must be a plain one.
pub fn identity(file: &Path) -> Result<Option<Identity>, Fault> {
    let name = file.display();
    // A pipe would be waited for, so it is not opened before it is known to be a file.
    let plain = fs::metadata(file).is_ok_and(|it| it.is_file());
    let opened = if plain {
        File::open(file).map(|_| ())
    } else {
        Ok(())
    };
    let data = opened.and_then(|()| fs::metadata(file));
    let data = data.map_err(Fault::because(format!("the capture {name} cannot be read")))?;
    match plain {
        true => Ok(Identity::of(&data)),
        false => Err(Fault::new(format!(
            "the capture {name} is not a plain file"
        ))),
    }
}

/// The capture in sigrok's own format, with its digital channels alone.
fn converted(
    file: &Path,
    format: Option<&str>,
    folder: &Path,
) -> Result<(PathBuf, Described), Fault> {
    let own = folder.join("capture.sr");
    let mut first = command(file);
    if let Some(format) = format {
        first.args(["-I", format]);
    }
    let words = written(first, &own)?;
    let described = described(&own).filter(|_| words.is_empty());
    let described = described.ok_or_else(|| unread(file, &words))?;
    if !described.analog {
        return Ok((own, described));
    }
    let digital = folder.join("digital.sr");
    let mut second = command(&own);
    second.arg("-C").arg(described.channels.join(","));
    let words = written(second, &digital)?;
    match words.is_empty() {
        true => Ok((digital, described)),
        false => Err(unread(file, &words)),
    }
}

/// sigrok-cli on a file, saying errors only.
fn command(file: &Path) -> Command {
    let mut command = Command::new(PROGRAM);
    command
        .args(["-l", "1", "-i"])
        .arg(file)
        .stdin(Stdio::null());
    command
}

/// Has a command write a capture in sigrok's own format; what it said of errors, in one line. Its status
/// is 0 after most of them.
fn written(mut command: Command, to: &Path) -> Result<String, Fault> {
    let output = command
        .args([OsStr::new("-o"), to.as_os_str()])
        .output()
        .map_err(not_started)?;
    let words = String::from_utf8_lossy(&output.stderr).into_owned();
    let lines = words.lines().map(str::trim);
    let lines: Vec<&str> = lines
        .filter(|it| !it.is_empty() && !it.ends_with(NO_RATE))
        .collect();
    Ok(lines.join("; "))
}

/// What a capture in sigrok's own format has; none if it has no samples of digital channels.
fn described(own: &Path) -> Option<Described> {
    let output = command(own).arg("--show").output().ok()?;
    let text = String::from_utf8_lossy(&output.stdout).into_owned();
    let number = |name: &str| {
        let line = text.lines().find_map(|it| it.strip_prefix(name))?;
        line.trim().parse::<u64>().ok().filter(|it| *it > 0)
    };
    let listed = || text.lines().filter_map(|it| it.strip_prefix("- "));
    let digital = listed().filter_map(|it| it.strip_suffix(": logic"));
    Some(Described {
        channels: digital.map(String::from).collect(),
        unit: number("Logic unitsize:")? as usize,
        samples: number("Logic sample count:")?,
        analog: listed().any(|it| it.ends_with(": analog")),
    })
}

fn unread(file: &Path, words: &str) -> Fault {
    let reason = match words {
        "" => "it finds no samples of digital channels",
        words => words,
    };
    let file = file.display();
    Fault::new(format!(
        "sigrok-cli cannot read the capture {file} (--format tells it the format): {reason}"
    ))
}

fn not_started(error: std::io::Error) -> Fault {
    match error.kind() {
        ErrorKind::NotFound => {
            Fault::new("sigrok-cli, which reads captures, is not installed (Debian: sigrok-cli)")
        }
        _ => Fault::because("sigrok-cli cannot be started")(error),
    }
}
