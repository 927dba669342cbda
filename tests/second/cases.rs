//! Cases and their answers, and how both are written: the columns are those of README.md.

use crate::rules::{self, Record, Told, COMMAND_LENGTH};

/// What the room of a case holds before the line is worked.
const FILLER: i64 = 77;
/// No case may ask for more table or room than this.
const MOST_NUMBERS: usize = 1_000_000;

/// One whole case: a line with all that is lent to it.
pub struct Case {
    pub line: Vec<u8>,
    pub switch: bool,
    pub record: [i64; 43],
    pub table_length: usize,
    pub changes: Vec<(usize, i64)>,
    pub room: usize,
}

/// What a case's line gives, with everything lent to it afterwards.
pub struct Answer {
    pub number: u64,
    pub count: usize,
    pub place: usize,
    pub work: usize,
    pub record: [i64; 43],
    pub changes: Vec<(usize, i64)>,
    pub output: Vec<i64>,
    /// Whether the room past the commands is as it was.
    pub kept: bool,
}

pub fn work(case: &Case) -> Answer {
    let mut before = vec![0; case.table_length];
    for &(number, value) in &case.changes {
        before[number] = value;
    }
    let (mut table, mut record, mut space) =
        (before.clone(), Record::from_numbers(&case.record), vec![FILLER; case.room]);
    let Told { number, count, place, work } =
        rules::interpret(&case.line, case.switch, &mut record, &mut table, &mut space);
    let pairs = table.iter().copied().enumerate().zip(before);
    let changes = pairs.filter(|(after, before)| after.1 != *before).map(|(after, _)| after).collect();
    let rest = space.split_off(COMMAND_LENGTH * count);
    let kept = rest.iter().all(|&number| number == FILLER);
    let record = record.to_numbers();
    Answer { number: u64::from(number), count, place, work, record, changes, output: space, kept }
}

// ---------------------------------------------------------------- Writing

/// `a=1,b=2`, with `=` or `:` between.
pub fn listed<T: std::fmt::Display>(pairs: impl IntoIterator<Item = (T, i64)>, between: char) -> String {
    let texts: Vec<String> = pairs.into_iter().map(|(name, value)| format!("{name}{between}{value}")).collect();
    texts.join(",")
}

fn numbers(list: &[i64]) -> String {
    let texts: Vec<String> = list.iter().map(i64::to_string).collect();
    texts.join(",")
}

/// An empty list is written `-`, so that every case has the same number of columns.
fn or_dash(text: &str) -> &str {
    if text.is_empty() {
        "-"
    } else {
        text
    }
}

impl Case {
    pub fn text(&self) -> String {
        let line: String = self.line.iter().map(|byte| format!("{byte:02x}")).collect();
        let (record, changes) = (numbers(&self.record), listed(self.changes.iter().copied(), ':'));
        let (switch, length, room) = (u8::from(self.switch), self.table_length, self.room);
        format!("{} {switch} {record} {length} {} {room}", or_dash(&line), or_dash(&changes))
    }
}

impl Answer {
    pub fn text(&self) -> String {
        let (record, changes) = (numbers(&self.record), listed(self.changes.iter().copied(), ':'));
        let (output, rest) = (numbers(&self.output), if self.kept { "ok" } else { "changed" });
        let told = format!("{} {} {} {}", self.number, self.count, self.place, self.work);
        format!("{told} {record} {} {} {rest}", or_dash(&changes), or_dash(&output))
    }
}

// ---------------------------------------------------------------- Reading

/// A case from its text; none if it is not written as above, to the byte.
pub fn case_of(text: &[u8]) -> Option<Case> {
    let columns: Vec<&str> = std::str::from_utf8(text).ok()?.split(' ').collect();
    let [line, switch, record, length, changes, room] = columns[..] else {
        return None;
    };
    let case = Case {
        line: bytes_of(line)?,
        switch: switch == "1",
        record: numbers_of(record)?.try_into().ok()?,
        table_length: length.parse().ok()?,
        changes: changes_of(changes)?,
        room: room.parse().ok()?,
    };
    let fits = case.table_length <= MOST_NUMBERS && case.room <= MOST_NUMBERS;
    let held = fits && case.changes.iter().all(|change| change.0 < case.table_length);
    (held && case.text().as_bytes() == text).then_some(case)
}

/// An answer from its text, likewise.
pub fn answer_of(text: &[u8]) -> Option<Answer> {
    let columns: Vec<&str> = std::str::from_utf8(text).ok()?.split(' ').collect();
    let [number, count, place, work, record, changes, output, rest] = columns[..] else {
        return None;
    };
    let answer = Answer {
        number: number.parse().ok()?,
        count: count.parse().ok()?,
        place: place.parse().ok()?,
        work: work.parse().ok()?,
        record: numbers_of(record)?.try_into().ok()?,
        changes: changes_of(changes)?,
        output: if output == "-" { Vec::new() } else { numbers_of(output)? },
        kept: rest == "ok",
    };
    (answer.text().as_bytes() == text).then_some(answer)
}

fn numbers_of(text: &str) -> Option<Vec<i64>> {
    text.split(',').map(|number| number.parse().ok()).collect()
}

fn bytes_of(text: &str) -> Option<Vec<u8>> {
    let digits: Vec<u8> = if text == "-" { Vec::new() } else { text.bytes().collect() };
    let pair = |pair: &[u8]| u8::from_str_radix(std::str::from_utf8(pair).ok()?, 16).ok();
    digits.chunks(2).map(pair).collect()
}

fn changes_of(text: &str) -> Option<Vec<(usize, i64)>> {
    if text == "-" {
        return Some(Vec::new());
    }
    let change = |change: &str| {
        let (number, value) = change.split_once(':')?;
        Some((number.parse().ok()?, value.parse().ok()?))
    };
    text.split(',').map(change).collect()
}
