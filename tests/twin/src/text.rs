//! The line format of the vectors, and what the programs print.

mod byte_line;
mod figures;

pub use byte_line::{ByteLine, OUTPUT_BEFORE};
pub use figures::Figures;

use crate::model::{Model, Ran};

/// One line: part pins bits trace number count offset answers changed, and on some the flag's
/// offset.
#[derive(Clone, Debug, PartialEq, Eq)]
pub struct Line {
    pub part: u32,
    pub pins: u32,
    pub bits: u32,
    pub trace: Vec<u8>,
    pub ran: Figures,
    pub answers: Vec<u8>,
    pub changed: Vec<(usize, u8)>,
}

/// The first memory of the vectors.
pub fn first_memory(size: usize) -> Vec<u8> {
    (0..size).map(first_byte).collect()
}

/// The byte at address i is (37 * i + 11) mod 256.
pub fn first_byte(address: usize) -> u8 {
    (37 * address + 11) as u8
}

impl Line {
    /// Runs a trace with unlimited quota from the first memory, for a line without the flag's
    /// offset. A refused making is the model of part 0.
    pub fn play(part: u32, pins: u32, bits: u32, trace: &[u8]) -> Line {
        Line::unplayed(part, pins, bits, trace, false).again()
    }

    /// The same for a line with the flag's offset.
    pub fn play_flagged(part: u32, pins: u32, bits: u32, trace: &[u8]) -> Line {
        Line::unplayed(part, pins, bits, trace, true).again()
    }

    /// As if the run came to nothing.
    fn unplayed(part: u32, pins: u32, bits: u32, trace: &[u8], flagged: bool) -> Line {
        Line {
            part,
            pins,
            bits,
            trace: trace.to_vec(),
            ran: Figures::of(Ran::none(0, trace), flagged),
            answers: Vec::new(),
            changed: Vec::new(),
        }
    }

    /// The run of a line over again, with the columns that the line has.
    pub fn again(&self) -> Line {
        let (_, mut model) = Model::make(self.part, self.pins, self.bits);
        let mut memory = first_memory(model.part().size);
        let mut answers = Vec::new();
        let ran = model.run(&self.trace, u64::MAX, &mut memory, &mut answers);
        self.with(ran, answers, &memory)
    }

    /// The line's making and trace with what a run of them gave, in the columns that the line has.
    pub fn with(&self, ran: Ran, answers: Vec<u8>, memory: &[u8]) -> Line {
        Line {
            ran: Figures::of(ran, self.ran.flag.is_some()),
            answers,
            changed: changed_cells(memory),
            ..self.clone()
        }
    }

    /// Reads a line, with the flag's offset or without; None if it isn't one.
    pub fn parse(line: &str) -> Option<Line> {
        let fields: Vec<&str> = line.split_whitespace().collect();
        let &[part, pins, bits, trace, ref told @ ..] = &fields[..] else {
            return None;
        };
        let &[number, count, offset, answers, changed, ref behind @ ..] = told else {
            return None;
        };
        Some(Line {
            part: part.parse().ok()?,
            pins: pins.parse().ok()?,
            bits: bits.parse().ok()?,
            trace: parse_hex(trace)?,
            ran: Figures::parse([number, count, offset], behind)?,
            answers: parse_answers(answers)?,
            changed: parse_changed(changed)?,
        })
    }
}

impl std::fmt::Display for Line {
    fn fmt(&self, to: &mut std::fmt::Formatter<'_>) -> std::fmt::Result {
        let trace = hex(&self.trace);
        let answers: String = self.answers.iter().map(|&answer| letter(answer)).collect();
        let changed = write_changed(&self.changed);
        write!(to, "{} {} {} ", self.part, self.pins, self.bits)?;
        write!(to, "{} {} ", or_dash(&trace), self.ran)?;
        write!(to, "{} {}", or_dash(&answers), or_dash(&changed))?;
        match self.ran.flag {
            Some(flag) => write!(to, " {flag}"),
            None => Ok(()),
        }
    }
}

/// The letter that a program prints for an answer.
pub fn letter(answer: u8) -> char {
    match answer {
        0 => '0',
        1 => '1',
        _ => 'Z',
    }
}

/// What the program for a part prints for its input: lines of 64 answers, then the result.
pub fn program(part: u32, input: &[u8]) -> String {
    if input.len() > 65_536 {
        return "too long\n".to_string();
    }
    let (_, mut model) = Model::make(part, 0, 0);
    let mut memory = vec![0; model.part().size];
    let mut answers = Vec::new();
    let ran = model.run(input, u64::MAX, &mut memory, &mut answers);
    let mut out = String::new();
    for line in answers.chunks(64) {
        out.extend(line.iter().map(|&answer| letter(answer)));
        out.push('\n');
    }
    out + &format!("{} {} {}\n", ran.number, ran.count, ran.offset)
}

/// The cells that are not as in the first memory.
pub fn changed_cells(memory: &[u8]) -> Vec<(usize, u8)> {
    let differs = |&(address, byte): &(usize, u8)| byte != first_byte(address);
    let cells = memory.iter().copied().enumerate();
    cells.filter(differs).collect()
}

fn write_changed(changed: &[(usize, u8)]) -> String {
    let cell = |(address, byte): &(usize, u8)| format!("{address:05x}={byte:02x}");
    let cells: Vec<String> = changed.iter().map(cell).collect();
    cells.join(",")
}

/// Two hex digits for each byte.
pub fn hex(bytes: &[u8]) -> String {
    bytes.iter().map(|byte| format!("{byte:02x}")).collect()
}

fn or_dash(text: &str) -> &str {
    if text.is_empty() {
        "-"
    } else {
        text
    }
}

/// Hex digits, or '-' for none.
pub fn parse_hex(text: &str) -> Option<Vec<u8>> {
    if text == "-" {
        return Some(Vec::new());
    }
    if !text.is_ascii() || !text.len().is_multiple_of(2) {
        return None;
    }
    let byte = |at: usize| u8::from_str_radix(&text[at..at + 2], 16).ok();
    (0..text.len()).step_by(2).map(byte).collect()
}

fn parse_answers(text: &str) -> Option<Vec<u8>> {
    if text == "-" {
        return Some(Vec::new());
    }
    let answer = |letter: char| "01Z".find(letter).map(|place| place as u8);
    text.chars().map(answer).collect()
}

fn parse_changed(text: &str) -> Option<Vec<(usize, u8)>> {
    if text == "-" {
        return Some(Vec::new());
    }
    let cell = |cell: &str| {
        let (address, byte) = cell.split_once('=')?;
        let address = usize::from_str_radix(address, 16).ok()?;
        Some((address, u8::from_str_radix(byte, 16).ok()?))
    };
    text.split(',').map(cell).collect()
}
