//! Comparing the report program with this one: it is run on many captures, several at a time, and every
//! byte that it writes must be as `sheet` has it.

mod lines;
mod stops;
mod trials;

use crate::chance::Chance;
use crate::code::Code;
use crate::compare::Report;
use crate::runs::child::{self, Run, StandardInput, Written};
use crate::runs::{self, agree};
use crate::sheet::{stop_line, History};
use std::fs;
use trials::Standard;

#[cfg(test)]
pub use trials::{trials, TRIALS};
pub use trials::{Trial, Word};

/// Where the program finds its captures.
const FOLDER: &str = "target/sheets";

pub fn compare(code: &Code, seed: u64, program: &[&str]) -> Result<Report, String> {
    let trials = trials::trials(code, &mut Chance::from_seed(seed));
    runs::compare(FOLDER, "reports", &trials, |trial| {
        tried(code, program, trial)
    })
}

/// The run to look at and what is wrong, or nothing.
fn tried(code: &Code, program: &[&str], trial: &Trial) -> Option<String> {
    let run = format!("{FOLDER}/{}", trial.name);
    let agreed = write_files(trial)
        .and_then(|()| child::run(program, &run_of(trial)))
        .and_then(|got| agree(&expected(code, trial), &got, &run))
        .and_then(|()| remove_files(trial));
    agreed.err().map(|reason| format!("{run}: {reason}\n"))
}

fn file(trial: &Trial, which: usize) -> String {
    format!("{FOLDER}/{}-{which}.capture", trial.name)
}

/// The files that are named by words, and last the one that becomes standard input.
fn files(trial: &Trial) -> Vec<(String, &[u8])> {
    let standard = match &trial.standard {
        Standard::File(bytes) => Some(bytes),
        _ => None,
    };
    let captures = trial.files.iter().chain(standard);
    captures
        .enumerate()
        .map(|(i, bytes)| (file(trial, i), &bytes[..]))
        .collect()
}

fn write_files(trial: &Trial) -> Result<(), String> {
    files(trial)
        .iter()
        .try_for_each(|(name, bytes)| fs::write(name, bytes))
        .map_err(|reason| reason.to_string())
}

fn remove_files(trial: &Trial) -> Result<(), String> {
    files(trial)
        .iter()
        .try_for_each(|(name, _)| fs::remove_file(name))
        .map_err(|reason| reason.to_string())
}

fn word(trial: &Trial, word: Word) -> String {
    match word {
        Word::File(which) => file(trial, which),
        Word::Dash => "-".to_string(),
        Word::Missing => format!("{FOLDER}/{}.missing", trial.name),
        Word::Folder => FOLDER.to_string(),
    }
}

/// The program writes nothing before it has read all.
fn run_of(trial: &Trial) -> Run<'_> {
    let words = trial.words.iter().map(|&one| word(trial, one)).collect();
    let input = match &trial.standard {
        Standard::Empty => StandardInput::Nothing,
        Standard::File(_) => StandardInput::File(file(trial, trial.files.len())),
        Standard::Pipe(pieces, bytes) => StandardInput::Pipe(*pieces, bytes),
        Standard::Folder => StandardInput::File(FOLDER.to_string()),
        Standard::Closed => StandardInput::Closed,
    };
    Run {
        words,
        input,
        header: 0,
    }
}

/// The name of each input in the order in which they are read, and what it holds, or why it can't be
/// read.
pub fn inputs(trial: &Trial) -> Vec<(String, Result<&[u8], &'static str>)> {
    let mut standard = trial.standard.contents();
    let mut input = |one: Word| match one {
        Word::File(which) => (word(trial, one), Ok(&trial.files[which][..])),
        Word::Missing => (word(trial, one), Err("No such file or directory")),
        Word::Folder => (word(trial, one), Err("Is a directory")),
        Word::Dash => {
            let contents = standard;
            // Whoever comes back finds the end of what was read.
            standard = standard.map(|_| &[][..]);
            ("standard input".to_string(), contents)
        }
    };
    if trial.words.is_empty() {
        return vec![input(Word::Dash)];
    }
    trial.words.iter().map(|&one| input(one)).collect()
}

/// No sheet where an input can't be read; stops of the others are told all the same (18.8).
pub fn expected(code: &Code, trial: &Trial) -> Written {
    let mut history = History::default();
    let mut errors = String::new();
    let inputs = inputs(trial);
    for (name, contents) in &inputs {
        match contents {
            Ok(bytes) => {
                history.take_in(code, bytes);
                errors += &stop_line(name, bytes);
            }
            Err(reason) => errors += &format!("{name}: {reason}\n"),
        }
    }
    let all_read = inputs.iter().all(|(_, contents)| contents.is_ok());
    let output = if all_read {
        history.sheet()
    } else {
        String::new()
    };
    Written {
        output: output.into_bytes(),
        errors: errors.into_bytes(),
    }
}
