//! Runs on captures of which some stop, are cut, can't be read, or come in pieces (18.5, 18.8).

use super::trials::{
    of_files, of_standard, some_records, stopping, with_wrong_mark, Standard, Trial, Word,
    MOST_WORDS,
};
use crate::capture::{starts, HEAD};
use crate::captures::damaged_records;
use crate::captures::pieces::PIECE;
use crate::captures::records::records;
use crate::chance::Chance;
use crate::code::Code;
use crate::runs::child::Pieces;

pub fn stops(code: &Code, chance: &mut Chance) -> Vec<Trial> {
    let mut trials = in_files(code, chance);
    trials.extend(cut_in_two(code, chance));
    trials.extend(unreadable(code, chance));
    trials.extend(in_pieces(code, chance));
    trials
}

/// Captures that are whole, that end about where the first piece does, and that stop behind it; another
/// file comes after them, before them and on both sides.
pub fn longer_than_a_piece(code: &Code, chance: &mut Chance) -> Vec<Trial> {
    let mut trials = Vec::new();
    for (i, (old, new)) in [(700, 0), (0, 700), (400, 300)].into_iter().enumerate() {
        let long = records(code, chance, old, new);
        let cut = chance.between(PIECE as i64 - 3, PIECE as i64 + 3) as usize;
        let inside = starts(&long).into_iter().find(|&start| start > PIECE);
        let wrong = with_wrong_mark(&long, inside.expect("a record behind the piece"));
        for (name, capture) in [
            ("whole", long.clone()),
            ("cut", long[..cut].to_vec()),
            ("wrong", wrong),
        ] {
            let short = some_records(code, chance);
            let files = match trials.len() % 3 {
                0 => vec![capture, short],
                1 => vec![short, capture],
                _ => vec![short.clone(), capture, short],
            };
            trials.push(of_files(format!("long-{i}-{name}"), files));
        }
    }
    trials
}

/// Stops in each one of several files, in each two of them, and in all.
fn in_files(code: &Code, chance: &mut Chance) -> Vec<Trial> {
    let mut trials = Vec::new();
    for many in 1..=MOST_WORDS {
        for which in 0_usize..1 << many {
            let stopping_ones = which.count_ones() as usize;
            if stopping_ones == 0 || (stopping_ones > 2 && stopping_ones < many) {
                continue;
            }
            let file = |i: usize| match which >> i & 1 {
                1 => stopping(code, chance),
                _ => some_records(code, chance),
            };
            let files = (0..many).map(file).collect();
            trials.push(of_files(format!("stops-{many}-{which}"), files));
        }
    }
    trials
}

/// A record of either kind whose bytes stand in two files: neither has it, and what the first one left
/// may not be joined to the second.
fn cut_in_two(code: &Code, chance: &mut Chance) -> Vec<Trial> {
    let mut trials = Vec::new();
    for (kind, old, new) in [("old", 1, 0), ("new", 0, 1)] {
        for cut in [1, 2, 3, HEAD, 50, 96, 97] {
            let record = records(code, chance, old, new);
            let around = [some_records(code, chance), some_records(code, chance)];
            let files = vec![
                [&around[0][..], &record[..cut]].concat(),
                [&record[cut..], &around[1]].concat(),
                some_records(code, chance),
            ];
            trials.push(of_files(format!("cut-in-two-{kind}-{cut}"), files));
        }
    }
    trials
}

/// Something that can't be read, alone and at each place among files, some of which stop.
fn unreadable(code: &Code, chance: &mut Chance) -> Vec<Trial> {
    let mut trials = Vec::new();
    for (name, standard) in [("folder", Standard::Folder), ("closed", Standard::Closed)] {
        for words in [&[][..], &[Word::Dash]] {
            let name = format!("unreadable-standard-{name}-{}", words.len());
            trials.push(of_standard(name, words, standard.clone()));
        }
    }
    for (name, word) in [("missing", Word::Missing), ("folder", Word::Folder)] {
        trials.push(of_standard(
            format!("unreadable-word-{name}"),
            &[word],
            Standard::Empty,
        ));
        trials.push(of_standard(
            format!("unreadable-words-{name}"),
            &[word, Word::Missing, word],
            Standard::Empty,
        ));
        for place in 0..=3 {
            let files = vec![
                some_records(code, chance),
                stopping(code, chance),
                some_records(code, chance),
            ];
            let mut trial = of_files(format!("unreadable-{name}-{place}"), files);
            trial.words.insert(place, word);
            trials.push(trial);
        }
    }
    for place in 0..=2 {
        let files = vec![stopping(code, chance), some_records(code, chance)];
        let mut trial = of_files(format!("unreadable-dash-{place}"), files);
        trial.words.insert(place, Word::Dash);
        trial.standard = Standard::Folder;
        trials.push(trial);
    }
    trials
}

/// Captures that come through a pipe: byte by byte, and in pieces of about a record, cut within a mark,
/// within a number and behind it; files come before and after.
fn in_pieces(code: &Code, chance: &mut Chance) -> Vec<Trial> {
    let mut trials = Vec::new();
    for next in [1, 97, 98, 99, 100, 101, PIECE] {
        for first in [1, 2, 3, HEAD, 98, 100] {
            let capture = match chance.below(3) {
                0 => stopping(code, chance),
                1 => records(code, chance, 1, 1),
                _ => damaged_records(code, chance),
            };
            let words = match trials.len() % 3 {
                0 => vec![],
                1 => vec![Word::File(0), Word::Dash],
                _ => vec![Word::Dash, Word::File(0)],
            };
            trials.push(Trial {
                name: format!("pieces-{first}-{next}"),
                files: vec![some_records(code, chance)],
                words,
                standard: Standard::Pipe(Pieces { first, next }, capture),
            });
        }
    }
    trials
}
