//! The same table, read and written by plain Rust. Records are split as by the crate `csv`: a state machine reads the bytes, with quotes,
//! into one record that is reused.
use std::fmt::Write;
use std::hint::black_box;
use std::time::Instant;

#[derive(Clone, Copy, PartialEq)]
enum State {
    StartRecord,
    StartField,
    InField,
    InQuoted,
    AfterQuote,
}

/// A record: the bytes of its fields, and where each ends.
#[derive(Default)]
struct Record {
    bytes: Vec<u8>,
    ends: Vec<usize>,
}

impl Record {
    fn field(&self, place: usize) -> &[u8] {
        let start = if place == 0 { 0 } else { self.ends[place - 1] };
        &self.bytes[start..self.ends[place]]
    }
}

/// Reads the next record, and returns the number of its bytes.
fn next_record(text: &[u8], record: &mut Record) -> Option<usize> {
    record.bytes.clear();
    record.ends.clear();
    let mut state = State::StartRecord;
    for (place, byte) in text.iter().enumerate() {
        match (state, *byte) {
            (State::InQuoted, b'"') => state = State::AfterQuote,
            (State::InQuoted, other) => record.bytes.push(other),
            (State::AfterQuote, b'"') => {
                record.bytes.push(b'"');
                state = State::InQuoted;
            }
            (State::StartRecord, b'\r' | b'\n') => {}
            (State::StartRecord | State::StartField, b'"') => state = State::InQuoted,
            (_, b',') => {
                record.ends.push(record.bytes.len());
                state = State::StartField;
            }
            (_, b'\r' | b'\n') => {
                record.ends.push(record.bytes.len());
                return Some(place + 1);
            }
            (_, other) => {
                record.bytes.push(other);
                state = State::InField;
            }
        }
    }
    if state == State::StartRecord {
        return None;
    }
    record.ends.push(record.bytes.len());
    Some(text.len())
}

/// Returns the number of a field: blanks, a sign, digits, blanks.
fn number(field: &[u8]) -> Option<i64> {
    let text = std::str::from_utf8(field).ok()?.trim_matches([' ', '\t']);
    match text.strip_prefix('¯') {
        Some(digits) => digits.parse::<i64>().ok()?.checked_neg(),
        None => text.parse().ok(),
    }
}

fn read(text: &[u8]) -> Option<(usize, usize, Vec<i64>)> {
    let mut record = Record::default();
    let (mut rows, mut columns, mut numbers) = (0, 0, Vec::new());
    let mut rest = text;
    while let Some(taken) = next_record(rest, &mut record) {
        rest = &rest[taken..];
        if rows == 0 {
            columns = record.ends.len();
        }
        if record.ends.len() != columns {
            return None;
        }
        for place in 0..columns {
            numbers.push(number(record.field(place))?);
        }
        rows += 1;
    }
    Some((rows, columns, numbers))
}

fn write(columns: usize, numbers: &[i64]) -> String {
    let mut text = String::new();
    for row in numbers.chunks(columns) {
        for (place, number) in row.iter().enumerate() {
            if place > 0 {
                text.push(',');
            }
            let _ = write!(text, "{number}");
        }
        text.push('\n');
    }
    text
}

fn time<T>(name: &str, call: impl Fn() -> T, result: impl Fn(&T) -> i64) {
    let mut least = u128::MAX;
    let mut last = 0;
    for _ in 0..10 {
        let start = Instant::now();
        let made = call();
        least = least.min(start.elapsed().as_nanos());
        last = result(&made);
    }
    println!("{name} {least} {last}");
}

fn main() {
    let numbers: Vec<i64> = (0..1000000i64)
        .map(|k| if k % 3 == 0 { -(k * 7919 % 1000003) } else { k * 7919 % 1000003 })
        .collect();
    let text = write(1000, &numbers);
    time(
        "reading",
        || read(black_box(text.as_bytes())),
        |table| table.as_ref().and_then(|t| t.2.last().copied()).unwrap_or(0),
    );
    time("writing", || write(1000, black_box(&numbers)), |made| made.len() as i64);
}
