//! The words of a command line.

use clap::builder::{PossibleValue, PossibleValuesParser, TypedValueParser};
use clap::{Args, Parser, Subcommand, ValueHint};
use clap_complete::Shell;
use sildrokk::Part;
use std::path::PathBuf;

#[derive(Parser)]
#[command(name = "sildrokk", version, propagate_version = true, after_help = STATUS)]
/// Plays traces on a proved model of five FeRAM parts, makes traces of captures, and shows runs as
/// waveforms
pub struct Options {
    #[command(subcommand)]
    pub command: Command,
}

const STATUS: &str =
    "Exit status: 0 if it is done, 1 if an event of the trace was refused, 2 for bad use";

#[derive(Subcommand)]
pub enum Command {
    /// Lists the five parts
    Parts,
    /// Plays a trace on a part and tells how it ended and what it changed
    #[command(after_help = STATUS)]
    Run(Run),
    /// Makes a trace of a logic analyser's capture, in any format that sigrok-cli reads
    Capture(Capture),
    /// Writes the run of a trace as a waveform (VCD) for GTKWave, PulseView and sigrok-cli
    #[command(after_help = STATUS)]
    Wave(Wave),
    /// Prints what a shell needs to complete the words of this command
    Completion {
        /// The shell
        shell: Shell,
    },
}

/// What both `run` and `wave` play.
#[derive(Args)]
pub struct Played {
    /// The part: its name or its number (see `sildrokk parts`)
    #[arg(value_parser = part(), ignore_case = true, hide_possible_values = true)]
    pub part: Part,
    /// The trace: a file of events, or - for standard input
    #[arg(value_hint = ValueHint::FilePath)]
    pub trace: PathBuf,
    /// How the address pins are set
    #[arg(long, value_name = "N", value_parser = number, default_value = "0")]
    pub pins: u32,
    /// The saved bits SRWD BP1 BP0, as a number of three bits
    #[arg(long, value_name = "N", value_parser = number, default_value = "0")]
    pub bits: u32,
    /// Stop after so many accepted events
    #[arg(long, value_name = "N", value_parser = count)]
    pub quota: Option<u64>,
}

#[derive(Args)]
pub struct Run {
    #[command(flatten)]
    pub played: Played,
    /// The part's memory, byte for byte; made with zeros if there is no such file, and replaced as a
    /// whole at the end
    #[arg(long, value_name = "FILE", value_hint = ValueHint::FilePath)]
    pub memory: Option<PathBuf>,
    /// Where the answers go, 0, 1 or Z for each accepted event
    #[arg(long, value_name = "FILE", value_hint = ValueHint::FilePath)]
    pub answers: Option<PathBuf>,
}

#[derive(Args)]
pub struct Wave {
    #[command(flatten)]
    pub played: Played,
    /// The part's memory, which is read and not changed
    #[arg(long, value_name = "FILE", value_hint = ValueHint::FilePath)]
    pub memory: Option<PathBuf>,
    /// The waveform, or - for standard output
    #[arg(short, long, value_name = "FILE.vcd", value_hint = ValueHint::FilePath)]
    pub output: PathBuf,
}

#[derive(Args)]
pub struct Capture {
    /// The part: its name or its number (see `sildrokk parts`)
    #[arg(value_parser = part(), ignore_case = true, hide_possible_values = true)]
    pub part: Part,
    /// The capture
    #[arg(value_hint = ValueHint::FilePath)]
    pub file: PathBuf,
    /// Which channel each wire is, or high or low for a wire that is tied. Needed are cs, sck, si, wp and
    /// hold on SPI; scl, sda and wp on I2C. The part's answers: so on SPI, out on I2C. The supply: power
    #[arg(
        long,
        required = true,
        value_name = "NAME=CHANNEL,..",
        value_delimiter = ','
    )]
    pub map: Vec<String>,
    /// The trace, or - for standard output
    #[arg(short, long, value_name = "TRACE", value_hint = ValueHint::FilePath)]
    pub output: PathBuf,
    /// The capture's format and its options, as sigrok-cli takes them behind -I
    #[arg(long, value_name = "FORMAT")]
    pub format: Option<String>,
    /// How the address pins are set: whose acknowledge is the part's, where out is mapped
    #[arg(long, value_name = "N", value_parser = number, default_value = "0")]
    pub pins: u32,
    /// Where a read of an I2C part that sends no address begins after a power on
    #[arg(long, value_name = "ADDRESS", value_parser = number, default_value = "0")]
    pub start: u32,
}

/// A part by its name, which bash and zsh complete, or by its number.
fn part() -> impl TypedValueParser<Value = Part> {
    let words = |part: Part| PossibleValue::new(part.name()).alias(NUMBERS[part as usize]);
    PossibleValuesParser::new(Part::ALL.map(words))
        .map(|word| word.parse().expect("the name or the number of a part"))
}

const NUMBERS: [&str; 5] = ["0", "1", "2", "3", "4"];

/// A number, decimal or behind 0x hexadecimal, of digits alone.
fn count(word: &str) -> Result<u64, String> {
    let (digits, radix) = match word.strip_prefix("0x") {
        Some(digits) => (digits, 16),
        None => (word, 10),
    };
    let parsed = u64::from_str_radix(digits, radix);
    match parsed {
        Ok(number) if !digits.starts_with('+') => Ok(number),
        _ => Err("not a number of 64 bits, decimal or hexadecimal behind 0x".into()),
    }
}

fn number(word: &str) -> Result<u32, String> {
    let large = |_| "a number of more than 32 bits".into();
    count(word).and_then(|it| it.try_into().map_err(large))
}
