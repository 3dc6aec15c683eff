//! The report that `run` and `capture` print: a label of at most ten columns, then what it tells; lines
//! that begin with ten blanks go on with the one before.

pub struct Report(Vec<(String, Vec<String>)>);

const COLUMN: usize = 10;

impl Report {
    #[track_caller]
    pub fn of(text: &str) -> Report {
        let mut lines: Vec<(String, Vec<String>)> = Vec::new();
        for line in text.lines() {
            let (label, told) = line.split_at_checked(COLUMN).unwrap_or((line, ""));
            match (label.trim_end(), lines.last_mut()) {
                ("", Some((_, more))) => more.push(told.into()),
                ("", None) => panic!("begins without a label: {text:?}"),
                (label, _) => lines.push((label.into(), vec![told.into()])),
            }
        }
        Report(lines)
    }

    pub fn labels(&self) -> Vec<&str> {
        self.0.iter().map(|(label, _)| label.as_str()).collect()
    }

    pub fn has(&self, label: &str) -> bool {
        self.labels().contains(&label)
    }

    /// What stands behind a label, and the lines that go on with it.
    #[track_caller]
    pub fn lines(&self, label: &str) -> &[String] {
        let found = self.0.iter().find(|(name, _)| name == label);
        &found
            .unwrap_or_else(|| panic!("no line {label:?} among {:#?}", self.0))
            .1
    }

    /// What stands behind a label, on its own line.
    #[track_caller]
    pub fn line(&self, label: &str) -> &str {
        &self.lines(label)[0]
    }

    /// The numbers on the line of a label.
    #[track_caller]
    pub fn numbers(&self, label: &str) -> Vec<u64> {
        numbers(self.line(label))
    }
}

/// The decimal numbers of a text in their order; digits within a word are none. Thousands are parted by
/// commas.
pub fn numbers(text: &str) -> Vec<u64> {
    let words = text.split(|letter: char| !letter.is_ascii_alphanumeric() && letter != ',');
    words
        .filter_map(|word| number(word.trim_matches(',')))
        .collect()
}

/// A number, with a comma before every three digits from the right.
fn number(word: &str) -> Option<u64> {
    let value = word.replace(',', "").parse().ok()?;
    (thousands(value) == word || value.to_string() == word).then_some(value)
}

/// The number as the report writes it: 4,096.
pub fn thousands(value: u64) -> String {
    let digits = value.to_string();
    let first = digits.len() % 3;
    let (head, tail) = digits.split_at(first);
    let groups = tail
        .as_bytes()
        .chunks(3)
        .map(|group| String::from_utf8_lossy(group).into_owned());
    let parts = Some(head.to_string())
        .filter(|it| !it.is_empty())
        .into_iter()
        .chain(groups);
    parts.collect::<Vec<_>>().join(",")
}

/// The rows of a dump: each row of sixteen bytes that is not as it was, before and after.
pub fn dump(before: &[u8], after: &[u8]) -> Vec<[String; 2]> {
    let rows = before
        .chunks(16)
        .zip(after.chunks(16))
        .zip((0..).step_by(16));
    let changed = rows.filter(|((before, after), _)| before != after);
    changed
        .map(|((before, after), address)| row(address, before, after))
        .collect()
}

fn row(address: usize, before: &[u8], after: &[u8]) -> [String; 2] {
    let hex = |bytes: &[u8]| {
        bytes
            .iter()
            .map(|byte| format!(" {byte:02X}"))
            .collect::<String>()
    };
    [
        format!("{address:06X}h  before {}", hex(before)),
        format!("         after  {}", hex(after)),
    ]
}
