//! Running a program many times, and comparing every byte that it writes with what it must write.

pub mod child;

use crate::compare::{Report, SHOWN};
use child::Written;
use std::fs;
use std::io;
use std::process::Command;
use std::sync::Mutex;
use std::thread;

const THREADS: usize = 2;
/// Progress is shown every so many runs.
const PROGRESS: usize = 100;

/// Passed only where all agree and there was something to agree on. The folder is where the program
/// finds the files of its runs; those of a run in which it writes something else stay there. A trial
/// that is tried gives what to show of it, or nothing where the program wrote what it must.
pub fn compare<T: Sync>(
    folder: &str,
    runs: &str,
    trials: &[T],
    tried: impl Fn(&T) -> Option<String> + Sync,
) -> Result<Report, String> {
    emptied(folder).map_err(|reason| format!("{folder}: {reason}"))?;
    let differing = differing(runs, trials, tried);
    let mut text: String = differing.iter().take(SHOWN).cloned().collect();
    let agree = trials.len() - differing.len();
    text += &format!("{agree} {runs} agree, {} differ\n", differing.len());
    Ok(Report {
        text,
        passed: differing.is_empty() && agree > 0,
    })
}

fn emptied(folder: &str) -> io::Result<()> {
    match fs::remove_dir_all(folder) {
        Err(reason) if reason.kind() != io::ErrorKind::NotFound => Err(reason),
        _ => fs::create_dir_all(folder),
    }
}

/// What to show of each trial in which the program wrote something else, in the trials' order.
fn differing<T: Sync>(
    runs: &str,
    trials: &[T],
    tried: impl Fn(&T) -> Option<String> + Sync,
) -> Vec<String> {
    let left = Mutex::new(trials.iter().enumerate());
    let next = || left.lock().expect("the trials left").next();
    let found = Mutex::new(Vec::new());
    let watched = is_watched();
    let work = || {
        while let Some((i, trial)) = next() {
            if let Some(difference) = tried(trial) {
                found.lock().expect("the list").push((i, difference));
            }
            if watched {
                show_progress(runs, i + 1, trials.len());
            }
        }
    };
    thread::scope(|scope| (0..THREADS).for_each(|_| drop(scope.spawn(work))));
    let mut found = found.into_inner().expect("the list");
    found.sort();
    found
        .into_iter()
        .map(|(_, difference)| difference)
        .collect()
}

/// Whether standard error is a terminal. Debian 12's Rust has no call for it, so `test` is asked.
fn is_watched() -> bool {
    let asked = Command::new("test").args(["-t", "2"]).status();
    asked.map_or(false, |status| status.success())
}

fn show_progress(runs: &str, done: usize, all: usize) {
    if done % PROGRESS == 0 || done == all {
        let end = if done == all { "\n" } else { "\r" };
        eprint!("{done} of {all} {runs}{end}");
    }
}

/// Keeps what the program wrote in a file named after the run where it isn't what was expected.
pub fn agree(expected: &Written, got: &Written, run: &str) -> Result<(), String> {
    if got.errors != expected.errors {
        let shown = |bytes: &[u8]| String::from_utf8_lossy(bytes).into_owned();
        return Err(format!(
            "{:?} on standard error, not {:?}",
            shown(&got.errors),
            shown(&expected.errors)
        ));
    }
    if got.output == expected.output {
        return Ok(());
    }
    let kept = format!("{run}.output");
    fs::write(&kept, &got.output).map_err(|reason| format!("{kept}: {reason}"))?;
    let pairs = expected.output.iter().zip(&got.output);
    let same = pairs.take_while(|(expected, got)| expected == got).count();
    Err(format!("{kept} differs from byte {same} on"))
}
