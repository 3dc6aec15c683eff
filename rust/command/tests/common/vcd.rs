//! VCD files: captures that the tests write by themselves, and a reader for what `wave` writes.

use std::collections::BTreeMap;

/// A capture: the names of its channels, and the levels of all of them at each sample.
pub struct Capture {
    pub channels: Vec<String>,
    pub samples: Vec<Vec<bool>>,
}

impl Capture {
    pub fn of(channels: &[&str]) -> Capture {
        let channels = channels.iter().map(|name| name.to_string()).collect();
        Capture {
            channels,
            samples: Vec::new(),
        }
    }

    /// As VCD, a microsecond for each sample. sigrok-cli takes what stands at the last time for the end
    /// and not for a sample, so one more follows.
    pub fn vcd(&self) -> String {
        let names = self.channels.iter().enumerate();
        let vars = names.map(|(at, name)| format!("$var wire 1 {} {name} $end\n", mark(at)));
        let head = format!(
            "$timescale 1 us $end\n{}$enddefinitions $end\n",
            vars.collect::<String>()
        );
        let times = self
            .samples
            .iter()
            .enumerate()
            .map(|(time, levels)| moment(time, levels));
        head + &times.collect::<String>() + &format!("#{}\n", self.samples.len())
    }

    /// As CSV: a line of names and then one line for each sample.
    pub fn csv(&self) -> String {
        let line = |levels: &Vec<bool>| {
            let digits: Vec<&str> = levels
                .iter()
                .map(|high| if *high { "1" } else { "0" })
                .collect();
            digits.join(",") + "\n"
        };
        let head = self.channels.join(",") + "\n";
        head + &self.samples.iter().map(line).collect::<String>()
    }
}

fn mark(channel: usize) -> char {
    char::from(b'!' + channel as u8)
}

fn moment(time: usize, levels: &[bool]) -> String {
    let levels = levels.iter().enumerate();
    let lines = levels.map(|(at, high)| format!("{}{}\n", u8::from(*high), mark(at)));
    format!("#{time}\n{}", lines.collect::<String>())
}

/// A waveform as it is read: for each wire the changes of its level, by their time in microseconds.
pub struct Wave {
    wires: BTreeMap<String, BTreeMap<u64, char>>,
    /// The last time in the file.
    pub end: u64,
}

impl Wave {
    #[track_caller]
    pub fn read(text: &str) -> Wave {
        let (head, body) = text.split_once("$enddefinitions").expect("definitions");
        let names = names(head);
        let per_microsecond = ticks_per_microsecond(head);
        let mut wave = Wave {
            wires: BTreeMap::new(),
            end: 0,
        };
        for word in body
            .split_whitespace()
            .filter(|word| !word.starts_with('$'))
        {
            match word.split_at(1) {
                ("#", time) => wave.end = whole(time.parse().expect("a time"), per_microsecond),
                (level, id) => wave.change(&names[id], level.chars().next().expect("a level")),
            }
        }
        wave
    }

    fn change(&mut self, wire: &str, level: char) {
        let level = level.to_ascii_lowercase();
        assert!("01zx".contains(level), "no level of one wire: {level}");
        self.wires
            .entry(wire.into())
            .or_default()
            .insert(self.end, level);
    }

    pub fn names(&self) -> Vec<&str> {
        self.wires.keys().map(String::as_str).collect()
    }

    /// The level of a wire at a time.
    #[track_caller]
    pub fn level(&self, wire: &str, time: u64) -> char {
        let changes = self
            .wires
            .get(wire)
            .unwrap_or_else(|| panic!("no wire {wire}"));
        let last = changes.range(..=time).next_back();
        *last
            .unwrap_or_else(|| panic!("no level of {wire} at {time}"))
            .1
    }
}

/// The names of the wires by their marks.
fn names(head: &str) -> BTreeMap<String, String> {
    let vars = head.split("$var").skip(1);
    let words = vars.map(|var| var.split_whitespace().collect::<Vec<_>>());
    let named = words.map(|words| {
        assert_eq!(words[1], "1", "a wire of one bit");
        (words[2].to_string(), words[3].to_string())
    });
    named.collect()
}

fn ticks_per_microsecond(head: &str) -> u64 {
    let scale = head.split_once("$timescale").expect("a time scale").1;
    let scale: String = scale
        .split("$end")
        .next()
        .expect("its end")
        .split_whitespace()
        .collect();
    match scale.as_str() {
        "1us" => 1,
        "100ns" => 10,
        "1ns" => 1_000,
        other => panic!("a time scale of {other}"),
    }
}

fn whole(time: u64, per_microsecond: u64) -> u64 {
    assert_eq!(time % per_microsecond, 0, "not at a whole microsecond");
    time / per_microsecond
}
