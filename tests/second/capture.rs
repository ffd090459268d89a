//! What a capture is and what the capture program must print: records of two kinds (12.1), each with
//! its soft answer (13.1), a new one also with what its number tells (13.8).

use crate::code::{Code, POSITIONS};
use crate::decoders::Refusal;

pub const OLD_MARK: [u8; 2] = [0x49, 0x43];
pub const NEW_MARK: [u8; 2] = [0x49, 0x44];
const NUMBER_BYTES: usize = 2;
const CONFIDENCE_BYTES: usize = 4;
const READING_BYTES: usize = CONFIDENCE_BYTES * POSITIONS;
/// The bytes of a new record before its reading.
pub const HEAD: usize = NEW_MARK.len() + NUMBER_BYTES;
/// The bytes of an old record.
pub const OLD_RECORD: usize = OLD_MARK.len() + READING_BYTES;
/// The bytes of a new record.
pub const NEW_RECORD: usize = HEAD + READING_BYTES;

/// A number that is more counts ahead than these is late (12.6).
const LONGEST_STEP: u32 = 32_768;

pub fn old_record(reading: &[i32]) -> Vec<u8> {
    [&OLD_MARK[..], &confidences(reading)].concat()
}

pub fn new_record(number: u16, reading: &[i32]) -> Vec<u8> {
    [&NEW_MARK[..], &number.to_be_bytes(), &confidences(reading)].concat()
}

fn confidences(reading: &[i32]) -> Vec<u8> {
    reading
        .iter()
        .flat_map(|confidence| confidence.to_be_bytes())
        .collect()
}

/// All that is printed, with the line feed of the last line.
pub fn output(code: &Code, capture: &[u8]) -> String {
    let (records, _) = records_of(capture);
    let mut lines = String::from("message reserve\n");
    let mut previous = None;
    for record in &records {
        lines += &answer(code, &reading_of(record));
        if let Some(number) = number_of(record) {
            let (told, kept) = told(previous, number);
            lines += &format!(" {told}");
            previous = Some(kept);
        }
        lines += "\n";
    }
    if let Some(stopped) = stopped(capture) {
        lines += &format!("{stopped}\n");
    }
    lines
}

/// What is told where the run stops (13.5).
pub fn stopped(capture: &[u8]) -> Option<String> {
    let (records, stop) = records_of(capture);
    let start: usize = records.iter().map(|record| record.len()).sum();
    stop.map(|refusal| format!("stopped {} at {start}", refusal as u8))
}

/// The readings of all records, of both kinds.
pub fn readings(capture: &[u8]) -> Vec<Vec<i32>> {
    let (records, _) = records_of(capture);
    records.into_iter().map(reading_of).collect()
}

/// Where the records of a capture start, and last where the run ends or stops.
pub fn starts(capture: &[u8]) -> Vec<usize> {
    let mut starts = vec![0];
    for record in records_of(capture).0 {
        starts.push(starts[starts.len() - 1] + record.len());
    }
    starts
}

/// The records of a capture, and what stops the run after them, if anything does (12.4).
fn records_of(capture: &[u8]) -> (Vec<&[u8]>, Option<Refusal>) {
    let mut records = Vec::new();
    let mut left = capture;
    while !left.is_empty() {
        match record_at_start(left) {
            Ok(record) => {
                records.push(record);
                left = &left[record.len()..];
            }
            Err(refusal) => return (records, Some(refusal)),
        }
    }
    (records, None)
}

/// The record that the bytes left begin with. A wrong mark is 9 even where the record is cut short
/// too (12.3).
fn record_at_start(left: &[u8]) -> Result<&[u8], Refusal> {
    let &[first, second, ..] = left else {
        return Err(Refusal::CutShort);
    };
    let length = match [first, second] {
        OLD_MARK => OLD_RECORD,
        NEW_MARK => NEW_RECORD,
        _ => return Err(Refusal::NoMark),
    };
    left.get(..length).ok_or(Refusal::CutShort)
}

/// A new record's number; an old record has none.
fn number_of(record: &[u8]) -> Option<u16> {
    match record {
        [first, second, high, low, ..] if [*first, *second] == NEW_MARK => {
            Some(u16::from_be_bytes([*high, *low]))
        }
        _ => None,
    }
}

fn reading_of(record: &[u8]) -> Vec<i32> {
    let confidence = |bytes: &[u8]| i32::from_be_bytes([bytes[0], bytes[1], bytes[2], bytes[3]]);
    record[record.len() - READING_BYTES..]
        .chunks(CONFIDENCE_BYTES)
        .map(confidence)
        .collect()
}

fn answer(code: &Code, reading: &[i32]) -> String {
    match code.soft(reading) {
        Ok(answer) => format!("{} {}", answer.message, answer.reserve),
        Err(refusal) => format!("refused {}", refusal as u8),
    }
}

/// What a number tells after the previous one (12.6), and which of the two is the previous number
/// from then on (12.7).
fn told(previous: Option<u16>, number: u16) -> (String, u16) {
    let Some(previous) = previous else {
        return ("0".to_string(), number);
    };
    match step(previous, number) {
        0 => ("repeat".to_string(), number),
        step @ 1..=LONGEST_STEP => ((step - 1).to_string(), number),
        _ => ("late".to_string(), previous),
    }
}

/// How many counts lead from one number to another (12.5), one by one.
fn step(from: u16, to: u16) -> u32 {
    let mut reached = from;
    let mut counts = 0;
    while reached != to {
        reached = if reached == u16::MAX { 0 } else { reached + 1 };
        counts += 1;
    }
    counts
}
