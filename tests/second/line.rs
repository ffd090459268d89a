//! The line format: reading a case line, writing it back, and writing the answer line of a case.

use crate::code::Code;
use crate::decoders::{self, Refusal};
use crate::tally::{Table, Tally, COUNTS};
use std::collections::BTreeMap;
use std::fmt::{self, Display, Formatter};
use std::str::FromStr;

#[derive(Clone, Debug, PartialEq)]
pub enum Case {
    Encode(u32),
    Read(u32),
    Syndrome(u32),
    Distance(u32, u32),
    /// A word and the lent buffer's contents before the call.
    WriteBytes(u32, Vec<u8>),
    ReadBytes(Vec<u8>),
    Correct(u32),
    Find(u32),
    /// A word and a pattern.
    Apply(u32, u32),
    /// A word and the lent slots' contents before the call.
    Candidates(u32, Vec<u32>),
    ClassFigure(u32, Vec<i32>),
    /// A class, a column and a reading.
    ColumnFigure(u32, u32, Vec<i32>),
    Soft(Vec<i32>),
    Quick(Vec<i32>),
    /// A reading's number and the buffers of two receivers.
    Better(u64, Vec<i32>, Vec<i32>),
    /// The tally and the table of counts before the call, and a reading.
    Count(Tally, Table, Vec<i32>),
}

/// No case has a longer table of counts.
const LONGEST_TABLE: usize = 2 * COUNTS;

pub fn spaced<T: Display>(numbers: &[T]) -> String {
    numbers.iter().map(|number| format!(" {number}")).collect()
}

impl Display for Case {
    fn fmt(&self, f: &mut Formatter) -> fmt::Result {
        match self {
            Case::Encode(message) => write!(f, "encode {message}"),
            Case::Read(word) => write!(f, "read {word}"),
            Case::Syndrome(word) => write!(f, "syndrome {word}"),
            Case::Distance(word, other) => write!(f, "distance {word} {other}"),
            Case::WriteBytes(word, bytes) => write!(f, "write_bytes {word}{}", spaced(bytes)),
            Case::ReadBytes(bytes) => write!(f, "read_bytes{}", spaced(bytes)),
            Case::Correct(word) => write!(f, "correct {word}"),
            Case::Find(word) => write!(f, "find {word}"),
            Case::Apply(word, pattern) => write!(f, "apply {word} {pattern}"),
            Case::Candidates(word, slots) => write!(f, "candidates {word}{}", spaced(slots)),
            Case::ClassFigure(class, reading) => {
                write!(f, "class_figure {class}{}", spaced(reading))
            }
            Case::ColumnFigure(class, column, reading) => {
                write!(f, "column_figure {class} {column}{}", spaced(reading))
            }
            Case::Soft(reading) => write!(f, "soft{}", spaced(reading)),
            Case::Quick(reading) => write!(f, "quick{}", spaced(reading)),
            // How many confidences are the first one's stands before both.
            Case::Better(number, first, second) => {
                let (length, first, second) = (first.len(), spaced(first), spaced(second));
                write!(f, "better {number} {length}{first}{second}")
            }
            // Of the table: its length, how many of its counts aren't 0, and each of these behind
            // its place.
            Case::Count(tally, table, reading) => {
                let (length, many) = (table.length, table.counts.len());
                let (tally, counts) = (tally_line(tally), counts_line(table));
                write!(f, "count{tally} {length} {many}{counts}{}", spaced(reading))
            }
        }
    }
}

/// A 0 stands for no smallest (18.1).
fn tally_line(tally: &Tally) -> String {
    let counts = [tally.read, tally.accepted, tally.refused_2, tally.refused_6];
    spaced(&counts) + &spaced(&[tally.smallest.unwrap_or(0), tally.total])
}

fn counts_line(table: &Table) -> String {
    let pairs = table.counts.iter();
    pairs
        .map(|(place, count)| format!(" {place} {count}"))
        .collect()
}

fn number<T: FromStr + Display>(text: &str) -> Result<T, String> {
    match text.parse::<T>() {
        // One spelling a number: "+1", "01" and "-0" are no decimal numbers of the format.
        Ok(number) if number.to_string() == text => Ok(number),
        _ => Err(format!("'{text}' is no number in the range of its place")),
    }
}

fn numbers<T: FromStr + Display>(texts: &[&str]) -> Result<Vec<T>, String> {
    texts.iter().map(|text| number(text)).collect()
}

fn only<T: FromStr + Display>(texts: &[&str]) -> Result<T, String> {
    match texts {
        [text] => number(text),
        _ => Err(format!("one number is expected, not {}", texts.len())),
    }
}

fn first_and_rest<'a, 'b, T: FromStr + Display>(
    texts: &'b [&'a str],
) -> Result<(T, &'b [&'a str]), String> {
    match texts {
        [first, rest @ ..] => Ok((number(first)?, rest)),
        [] => Err("a number is missing".to_string()),
    }
}

fn tally_and_rest<'a, 'b>(texts: &'b [&'a str]) -> Result<(Tally, &'b [&'a str]), String> {
    let (read, rest) = first_and_rest(texts)?;
    let (accepted, rest) = first_and_rest(rest)?;
    let (refused_2, rest) = first_and_rest(rest)?;
    let (refused_6, rest) = first_and_rest(rest)?;
    let (smallest, rest) = first_and_rest(rest)?;
    let (total, rest) = first_and_rest(rest)?;
    let tally = Tally {
        read,
        accepted,
        refused_2,
        refused_6,
        smallest: Some(smallest).filter(|&smallest| smallest != 0),
        total,
    };
    Ok((tally, rest))
}

/// One spelling a table: its places ascend, and no count among them is 0.
fn table_and_rest<'a, 'b>(texts: &'b [&'a str]) -> Result<(Table, &'b [&'a str]), String> {
    let (length, rest) = first_and_rest(texts)?;
    let (many, mut rest) = first_and_rest::<usize>(rest)?;
    if length > LONGEST_TABLE {
        return Err(format!("a table of more than {LONGEST_TABLE} counts"));
    }
    let mut counts = BTreeMap::new();
    for _ in 0..many {
        let (place, behind) = first_and_rest(rest)?;
        let (count, behind) = first_and_rest(behind)?;
        let ascends = counts.keys().last().map_or(true, |&last| last < place);
        if !ascends || place >= length || count == 0 {
            return Err(format!("'{place} {count}' is no next count of the table"));
        }
        counts.insert(place, count);
        rest = behind;
    }
    Ok((Table { length, counts }, rest))
}

impl Case {
    pub fn from_line(line: &str) -> Result<Case, String> {
        let words: Vec<&str> = line.split(' ').collect();
        let (call, texts) = (words[0], &words[1..]);
        match call {
            "encode" => Ok(Case::Encode(only(texts)?)),
            "read" => Ok(Case::Read(only(texts)?)),
            "syndrome" => Ok(Case::Syndrome(only(texts)?)),
            "correct" => Ok(Case::Correct(only(texts)?)),
            "find" => Ok(Case::Find(only(texts)?)),
            "apply" => {
                first_and_rest(texts).and_then(|(word, rest)| Ok(Case::Apply(word, only(rest)?)))
            }
            "read_bytes" => Ok(Case::ReadBytes(numbers(texts)?)),
            "soft" => Ok(Case::Soft(numbers(texts)?)),
            "quick" => Ok(Case::Quick(numbers(texts)?)),
            "distance" => {
                first_and_rest(texts).and_then(|(word, rest)| Ok(Case::Distance(word, only(rest)?)))
            }
            "write_bytes" => first_and_rest(texts)
                .and_then(|(word, rest)| Ok(Case::WriteBytes(word, numbers(rest)?))),
            "candidates" => first_and_rest(texts)
                .and_then(|(word, rest)| Ok(Case::Candidates(word, numbers(rest)?))),
            "class_figure" => first_and_rest(texts)
                .and_then(|(class, rest)| Ok(Case::ClassFigure(class, numbers(rest)?))),
            "column_figure" => {
                let (class, rest) = first_and_rest(texts)?;
                let (column, rest) = first_and_rest(rest)?;
                Ok(Case::ColumnFigure(class, column, numbers(rest)?))
            }
            "better" => {
                let (number, rest) = first_and_rest(texts)?;
                let (length, rest) = first_and_rest::<usize>(rest)?;
                if length > rest.len() {
                    return Err(format!("fewer than {length} confidences"));
                }
                let (first, second) = rest.split_at(length);
                Ok(Case::Better(number, numbers(first)?, numbers(second)?))
            }
            "count" => {
                let (tally, rest) = tally_and_rest(texts)?;
                let (table, rest) = table_and_rest(rest)?;
                Ok(Case::Count(tally, table, numbers(rest)?))
            }
            _ => Err(format!("'{call}' is no call")),
        }
    }

    pub fn answer_line(&self, code: &Code) -> String {
        match self {
            Case::Encode(message) => line_of(code.encode(*message)),
            Case::Read(word) => line_of(code.read(*word)),
            Case::Syndrome(word) => line_of(decoders::syndrome(*word)),
            Case::Distance(word, other) => line_of(decoders::distance_between(*word, *other)),
            Case::ReadBytes(bytes) => line_of(code.read_bytes(bytes)),
            Case::Correct(word) => line_of(
                code.correct(*word)
                    .map(|(codeword, distance)| format!("{codeword} {distance}")),
            ),
            Case::Find(word) => line_of(
                code.find(*word)
                    .map(|(pattern, distance)| format!("{pattern} {distance}")),
            ),
            Case::Apply(word, pattern) => line_of(decoders::apply(*word, *pattern)),
            Case::ClassFigure(class, reading) => line_of(code.class_figure(*class, reading)),
            Case::ColumnFigure(class, column, reading) => {
                line_of(decoders::column_figure(*class, *column, reading))
            }
            Case::Soft(reading) => line_of(code.soft(reading).map(|answer| {
                format!(
                    "{} {} {} {}",
                    answer.message, answer.codeword, answer.correlation, answer.reserve
                )
            })),
            Case::Quick(reading) => line_of(code.quick(reading)),
            Case::Better(number, first, second) => {
                line_of(Ok(code.better(*number, first, second).0))
            }
            Case::WriteBytes(word, bytes) => {
                let mut lent = bytes.clone();
                lending_line(code.write_bytes(*word, &mut lent), &spaced(&lent))
            }
            Case::Candidates(word, slots) => {
                let mut lent = slots.clone();
                lending_line(code.candidates(*word, &mut lent), &spaced(&lent))
            }
            Case::Count(tally, table, reading) => {
                let (mut tally, mut counts) = (tally.clone(), table.whole());
                let counted = code.count(&mut tally, &mut counts, reading);
                lending_line(counted, &lent_line(&tally, &Table::of(&counts)))
            }
        }
    }
}

fn line_of<T: Display>(answer: Result<T, Refusal>) -> String {
    match answer {
        Ok(values) => format!("answered {values}"),
        Err(refusal) => format!("refused {}", refusal as u8),
    }
}

/// A call that lends memory has no other value, so its line ends in the memory's later contents.
fn lending_line(answer: Result<(), Refusal>, lent: &str) -> String {
    match answer {
        Ok(()) => format!("answered |{lent}"),
        Err(refusal) => format!("refused {} |{lent}", refusal as u8),
    }
}

/// The lent memory of a case of counting as an answer line has it.
pub fn lent_line(tally: &Tally, table: &Table) -> String {
    format!("{} |{}", tally_line(tally), counts_line(table))
}

/// The lines of a text; a line feed ends a line, and the last line may lack it.
pub fn lines_of(text: &str) -> Vec<&str> {
    if text.is_empty() {
        return Vec::new();
    }
    text.strip_suffix('\n')
        .unwrap_or(text)
        .split('\n')
        .collect()
}

/// All cases of a text; the name says in the error where the text came from.
pub fn cases_of(name: &str, text: &str) -> Result<Vec<Case>, String> {
    let named = |(i, line): (usize, &&str)| {
        Case::from_line(line).map_err(|reason| format!("{name}, line {}: {reason}", i + 1))
    };
    lines_of(text).iter().enumerate().map(named).collect()
}
