//! The runs that the report program is tried in: which captures it gets, and how.

use super::lines::lines;
use super::stops::{longer_than_a_piece, stops};
use crate::captures::records::records;
use crate::captures::{damaged_records, with_byte};
use crate::chance::Chance;
use crate::code::Code;
use crate::runs::child::Pieces;

pub struct Trial {
    /// No two have the same name: it names the files.
    pub name: String,
    pub files: Vec<Vec<u8>>,
    pub words: Vec<Word>,
    pub standard: Standard,
}

/// A word of the program's, a file by its place among the files.
#[derive(Clone, Copy, Debug, PartialEq)]
pub enum Word {
    File(usize),
    Dash,
    Missing,
    Folder,
}

/// What the program has as its standard input.
#[derive(Clone)]
pub enum Standard {
    Empty,
    File(Vec<u8>),
    Pipe(Pieces, Vec<u8>),
    Folder,
    Closed,
}

impl Standard {
    /// What is read from it, or why nothing can be.
    pub fn contents(&self) -> Result<&[u8], &'static str> {
        match self {
            Standard::Empty => Ok(&[]),
            Standard::File(bytes) | Standard::Pipe(_, bytes) => Ok(bytes),
            Standard::Folder => Err("Is a directory"),
            Standard::Closed => Err("Bad file descriptor"),
        }
    }
}

/// README.md has this number too. What the other trials leave of it are random.
pub const TRIALS: usize = 500;

pub const MOST_WORDS: usize = 5;

pub const BYTE_BY_BYTE: Pieces = Pieces { first: 1, next: 1 };

pub fn trials(code: &Code, chance: &mut Chance) -> Vec<Trial> {
    // The longest come first, so that the other thread goes on meanwhile.
    let mut trials = longer_than_a_piece(code, chance);
    trials.extend(lines(code, chance));
    trials.extend(stops(code, chance));
    let others = trials.len();
    trials.extend((others..TRIALS).map(|i| random(code, chance, i)));
    trials
}

/// Each capture as a file of its own.
pub fn of_files(name: String, files: Vec<Vec<u8>>) -> Trial {
    Trial {
        name,
        words: (0..files.len()).map(Word::File).collect(),
        files,
        standard: Standard::Empty,
    }
}

pub fn of_standard(name: String, words: &[Word], standard: Standard) -> Trial {
    Trial {
        name,
        files: Vec::new(),
        words: words.to_vec(),
        standard,
    }
}

/// Both kinds in random order.
pub fn some_records(code: &Code, chance: &mut Chance) -> Vec<u8> {
    let (old, new) = (chance.below(4) as usize, 1 + chance.below(3) as usize);
    records(code, chance, old, new)
}

pub fn with_wrong_mark(capture: &[u8], start: usize) -> Vec<u8> {
    with_byte(capture, start + 1, capture[start + 1] ^ 1 << 5)
}

/// A capture that stops: with 9 or with 10, at its start or behind records. What stands behind the stop
/// would be read but for it.
pub fn stopping(code: &Code, chance: &mut Chance) -> Vec<u8> {
    let before = if chance.one_in(3) {
        Vec::new()
    } else {
        some_records(code, chance)
    };
    let behind = some_records(code, chance);
    let rest = match chance.below(5) {
        0 => behind[..1].to_vec(),
        1 => behind[..2].to_vec(),
        2 => behind[..97].to_vec(),
        3 => with_wrong_mark(&behind, 0),
        _ => [&b"I"[..], &behind].concat(),
    };
    [before, rest].concat()
}

/// Up to five words of all sorts, the same file at times twice, with damaged captures and others; in
/// one run of eight something that can't be read.
fn random(code: &Code, chance: &mut Chance, i: usize) -> Trial {
    let any_capture = |chance: &mut Chance| match chance.below(4) {
        0 => some_records(code, chance),
        1 => Vec::new(),
        2 => stopping(code, chance),
        _ => damaged_records(code, chance),
    };
    let many = chance.below(MOST_WORDS as u64 + 1) as usize;
    let files: Vec<Vec<u8>> = (0..many).map(|_| any_capture(chance)).collect();
    let mut words: Vec<Word> = (0..many)
        .map(|_| Word::File(chance.below(many as u64) as usize))
        .collect();
    if many > 0 && chance.one_in(3) {
        words[chance.below(many as u64) as usize] = Word::Dash;
    }
    if many > 0 && chance.one_in(8) {
        words[chance.below(many as u64) as usize] = chance.pick(&[Word::Missing, Word::Folder]);
    }
    Trial {
        name: format!("random-{i}"),
        files,
        words,
        standard: Standard::File(any_capture(chance)),
    }
}
