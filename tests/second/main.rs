//! The second program's commands: it decides by brute force what every call must answer.
//!
//! It is written from the rules alone and shares no table and no trick with the proved code, so
//! that a slip of the one can't be a slip of the other. A number such as 5.7 is a rule's, in
//! docs/RULES.md.

mod capture;
mod captures;
mod cases;
mod chance;
mod code;
mod compare;
mod decoders;
mod line;
mod numbers;
mod parts;
mod readings;
mod runs;
mod samples;
mod sheet;
mod sheets;
mod tally;
#[cfg(test)]
mod tests;
mod words;

use cases::Kind;
use code::Code;
use compare::Report;
use line::Case;
use samples::Sample;
use sheet::{stop_line, History};
use std::fs;
use std::io::{self, BufWriter, Read, Write};
use std::process::exit;
use std::time::{SystemTime, UNIX_EPOCH};

const USAGE: &str =
    "usage: second cases KIND SEED        prints the cases of a kind that a seed gives
       second fixed KIND             prints the fixed cases of a kind
       second answers                reads cases, prints an answer line each
       second compare CASES ANSWERS  compares a file of answers with its own
       second lent                   reads cases of two receivers, prints what the program of
                                     crates/parts reads for them
       second parts                  reads such cases, prints what that program must print
       second capture FILE           prints what the capture program must print for a file
       second sample SAMPLE SEED     prints the capture that a seed gives
       second captures SEED PROGRAM [WORD..]
                                     runs a capture program on captures that a seed gives, and
                                     compares what it writes with its own
       second sheet FILE..           prints what the report program must print for files
       second sheets SEED PROGRAM [WORD..]
                                     runs a report program on captures that a seed gives, and
                                     compares what it writes with its own
       second seed                   prints a fresh seed
KIND is golay, hard, favours, soft, quick, receivers or tally;
SAMPLE is decent, weak, damaged or numbered; SEED is a decimal number below 2^64";

enum Failure {
    Usage,
    Reason(String),
    Disagreement,
}

impl From<String> for Failure {
    fn from(reason: String) -> Failure {
        Failure::Reason(reason)
    }
}

fn main() {
    let arguments: Vec<String> = std::env::args_os()
        .skip(1)
        .map(|word| word.to_string_lossy().into_owned())
        .collect();
    let words: Vec<&str> = arguments.iter().map(String::as_str).collect();
    let mut out = BufWriter::new(io::stdout());
    let done = run(&words, &mut out);
    let flushed = out
        .flush()
        .map_err(|reason| Failure::Reason(format!("standard output: {reason}")));
    match done.and(flushed) {
        Ok(()) => (),
        Err(Failure::Usage) => fail(USAGE, 2),
        Err(Failure::Reason(reason)) => fail(&format!("second: {reason}"), 1),
        Err(Failure::Disagreement) => exit(1),
    }
}

fn fail(message: &str, status: i32) {
    eprintln!("{message}");
    exit(status);
}

fn run(words: &[&str], out: &mut dyn Write) -> Result<(), Failure> {
    let code = Code::by_the_column_rule();
    match words {
        ["cases", kind, seed] => print_all(
            &kind_named(kind)?.seeded(&code, seed_of(seed)?)?,
            out,
            Case::to_string,
        ),
        ["fixed", kind] => print_all(&kind_named(kind)?.fixed(&code)?, out, Case::to_string),
        ["answers"] => print_all(&cases_of_standard_input()?, out, |case| {
            case.answer_line(&code)
        }),
        ["lent"] => cases_of_standard_input()?
            .iter()
            .try_for_each(|case| print_bytes(&parts::bytes_of(case)?, out)),
        ["parts"] => cases_of_standard_input()?
            .iter()
            .try_for_each(|case| print_text(&parts::line_of(&code, case)?, out)),
        ["compare", cases, answers] => print_report(&compare::compare(&code, cases, answers)?, out),
        ["captures", seed, program @ ..] if !program.is_empty() => {
            print_report(&captures::compare(&code, seed_of(seed)?, program)?, out)
        }
        ["capture", file] => print_text(&capture::output(&code, &bytes_of(file)?), out),
        ["sheet", files @ ..] if !files.is_empty() => print_sheet(&code, files, out),
        ["sheets", seed, program @ ..] if !program.is_empty() => {
            print_report(&sheets::compare(&code, seed_of(seed)?, program)?, out)
        }
        ["sample", name, seed] => {
            let sample = Sample::named(name).ok_or(Failure::Usage)?;
            print_bytes(&sample.capture(&code, seed_of(seed)?), out)
        }
        ["seed"] => print_text(&format!("{}\n", fresh_seed()?), out),
        _ => Err(Failure::Usage),
    }
}

fn kind_named(name: &str) -> Result<Kind, Failure> {
    Kind::named(name).ok_or(Failure::Usage)
}

fn seed_of(text: &str) -> Result<u64, Failure> {
    text.parse().map_err(|_| Failure::Usage)
}

fn bytes_of(file: &str) -> Result<Vec<u8>, String> {
    fs::read(file).map_err(|reason| format!("{file}: {reason}"))
}

fn cases_of_standard_input() -> Result<Vec<Case>, String> {
    let mut text = String::new();
    io::stdin()
        .read_to_string(&mut text)
        .map_err(|reason| format!("standard input: {reason}"))?;
    line::cases_of("standard input", &text)
}

fn print_text(text: &str, out: &mut dyn Write) -> Result<(), Failure> {
    print_bytes(text.as_bytes(), out)
}

fn print_bytes(bytes: &[u8], out: &mut dyn Write) -> Result<(), Failure> {
    out.write_all(bytes)
        .map_err(|reason| Failure::Reason(format!("standard output: {reason}")))
}

fn print_report(report: &Report, out: &mut dyn Write) -> Result<(), Failure> {
    print_text(&report.text, out)?;
    if report.passed {
        Ok(())
    } else {
        Err(Failure::Disagreement)
    }
}

/// The lines of captures that stop go to standard error, as the report program's do.
fn print_sheet(code: &Code, files: &[&str], out: &mut dyn Write) -> Result<(), Failure> {
    let mut history = History::default();
    for file in files {
        let bytes = bytes_of(file)?;
        history.take_in(code, &bytes);
        eprint!("{}", stop_line(file, &bytes));
    }
    print_text(&history.sheet(), out)
}

fn print_all(
    cases: &[Case],
    out: &mut dyn Write,
    line: impl Fn(&Case) -> String,
) -> Result<(), Failure> {
    cases
        .iter()
        .try_for_each(|case| print_text(&(line(case) + "\n"), out))
}

fn fresh_seed() -> Result<u64, String> {
    let since = SystemTime::now()
        .duration_since(UNIX_EPOCH)
        .map_err(|reason| format!("system clock: {reason}"))?;
    Ok(since.as_nanos() as u64)
}
