//! Comparing the capture program with this one: it is run on many captures, and every byte that it
//! writes must be as `capture::output` has it.

mod damage;
mod input;
pub mod pieces;
pub mod records;
mod trials;

use crate::capture;
use crate::chance::Chance;
use crate::code::Code;
use crate::compare::Report;
use crate::runs::child::{self, Written};
use crate::runs::{self, agree};
use std::fs;
use trials::Trial;

pub use trials::{damaged_records, with_byte};
#[cfg(test)]
pub use trials::{trials, TRIALS};

/// Where the program finds its captures.
const FOLDER: &str = "target/captures";

pub fn compare(code: &Code, seed: u64, program: &[&str]) -> Result<Report, String> {
    let trials = trials::trials(code, &mut Chance::from_seed(seed));
    runs::compare(FOLDER, "captures", &trials, |trial| {
        tried(code, program, trial)
    })
}

/// The file to look at and what is wrong, or nothing.
fn tried(code: &Code, program: &[&str], trial: &Trial) -> Option<String> {
    let file = format!("{FOLDER}/{}.capture", trial.name);
    let agreed = fs::write(&file, &trial.bytes)
        .map_err(|reason| reason.to_string())
        .and_then(|()| child::run(program, &trial.input.run(&file, &trial.bytes)))
        .and_then(|got| agree(&expected(code, trial, &file), &got, &file))
        .and_then(|()| fs::remove_file(&file).map_err(|reason| reason.to_string()));
    agreed.err().map(|reason| format!("{file}: {reason}\n"))
}

fn expected(code: &Code, trial: &Trial, file: &str) -> Written {
    match trial.input.complaint(file) {
        Some(complaint) => Written {
            output: Vec::new(),
            errors: complaint.into_bytes(),
        },
        None => Written {
            output: capture::output(code, &trial.bytes).into_bytes(),
            errors: Vec::new(),
        },
    }
}
