//! Captures of which the program gets no more than a piece at a time: longer than what it reads at
//! once, or through a pipe.

use super::input::Input;
use super::records::{records, records_of_numbers, UNEVEN};
use super::trials::{trial, with_byte, Trial, WHOLE};
use crate::capture::{starts, HEAD, NEW_MARK, NEW_RECORD, OLD_RECORD};
use crate::chance::Chance;
use crate::code::Code;
use crate::runs::child::Pieces;

/// The program reads 64 KiB at a time; these many old records are whole in them.
pub const PIECE: usize = 65_536;
const RECORDS_IN_A_PIECE: usize = PIECE / OLD_RECORD;

/// Lengths of pieces that come through a pipe: a byte, and about a record.
const SMALL_PIECES: [usize; 6] = [1, 97, 98, 99, 100, 101];

pub fn in_pieces(code: &Code, chance: &mut Chance) -> Vec<Trial> {
    let mut trials = near_pieces(code, chance);
    trials.extend(across_a_piece(code, chance));
    trials.extend(marks_near_a_piece(code, chance));
    trials.extend(in_two_pieces(code, chance));
    trials.extend(in_small_pieces(code, chance));
    trials
}

/// Lengths from a record below to a record above the ends of pieces, given whole and in odd pieces.
fn near_pieces(code: &Code, chance: &mut Chance) -> Vec<Trial> {
    let odd_pieces = Input::Pipe(Pieces {
        first: 97,
        next: PIECE / 2 - 1,
    });
    let inputs = [&WHOLE[..], &[odd_pieces]].concat();
    let many = 4 * RECORDS_IN_A_PIECE;
    let mut trials = Vec::new();
    for (kind, new) in [("old", 0), ("new", many), ("both", many / 2)] {
        let bytes = records(code, chance, many - new, new);
        for (i, end) in ends_of_pieces(&bytes).into_iter().enumerate() {
            for more in [0, 2, 99, 100, 101, 102, 103, 197, 198, 199, 200] {
                let length = end - NEW_RECORD + more;
                let input = inputs[trials.len() % inputs.len()];
                let name = format!("length-{kind}-{i}-{length}");
                trials.push(trial(name, &bytes[..length], input));
            }
        }
    }
    trials
}

/// The multiples of a piece; and where the whole records in a piece end, if each piece begins with the
/// record that the one before it cut.
fn ends_of_pieces(bytes: &[u8]) -> Vec<usize> {
    let starts = starts(bytes);
    let mut ends = Vec::new();
    let mut whole = 0;
    for many in 1..=3 {
        let cut = starts.partition_point(|&start| start <= whole + PIECE);
        whole = starts[cut - 1];
        ends.extend([many * PIECE, whole]);
    }
    ends
}

/// Records of both kinds, one of which starts so many bytes before the first piece's end: a new one
/// with the given number, or an old one. The bytes must be even in number: records are of even
/// length, so a piece of 64 KiB ends at no odd place.
fn begun_before(code: &Code, chance: &mut Chance, before: usize, number: Option<u16>) -> Vec<u8> {
    let length = PIECE - before;
    let many = length / ((OLD_RECORD + NEW_RECORD) / 2);
    let new = (length - many * OLD_RECORD) / (NEW_RECORD - OLD_RECORD);
    [
        records(code, chance, many - new, new),
        records_of_numbers(code, chance, &[number]),
        records(code, chance, 2, 2),
    ]
    .concat()
}

/// The first piece ends before a record, within it and behind it.
fn across_a_piece(code: &Code, chance: &mut Chance) -> Vec<Trial> {
    let mut trials = Vec::new();
    for (kind, number) in [("old", None), ("new", Some(7))] {
        for before in [0, 2, 4, 6, 50, 96, 98, 100] {
            let bytes = begun_before(code, chance, before, number);
            let input = WHOLE[trials.len() % WHOLE.len()];
            trials.push(trial(format!("across-{kind}-{before}"), &bytes, input));
        }
    }
    trials
}

/// Each byte of the marks around the end of the first piece is wrong in one of these.
fn marks_near_a_piece(code: &Code, chance: &mut Chance) -> Vec<Trial> {
    let captures = [
        ("old", records(code, chance, RECORDS_IN_A_PIECE + 3, 0)),
        ("before", begun_before(code, chance, 2, Some(7))),
        ("behind", begun_before(code, chance, 0, Some(7))),
    ];
    let mut trials = Vec::new();
    for (name, bytes) in captures {
        let starts = starts(&bytes);
        let cut = starts.partition_point(|&start| start <= PIECE);
        for start in &starts[cut - 2..cut + 2] {
            for place in [*start, start + 1] {
                let bytes = with_byte(&bytes, place, bytes[place] ^ 1);
                let name = format!("mark-{name}-{place}");
                trials.push(trial(name, &bytes, Input::Argument));
            }
        }
    }
    trials
}

/// Short captures and some longer than a piece, the pipe's first piece ending at every place of the
/// first record; in the short one of both kinds also of the two records after it, where there is a
/// previous number to keep.
fn in_two_pieces(code: &Code, chance: &mut Chance) -> Vec<Trial> {
    let old = records(code, chance, RECORDS_IN_A_PIECE + 3, 0);
    let uneven = records_of_numbers(code, chance, &UNEVEN);
    let half = RECORDS_IN_A_PIECE / 2;
    let both = [&uneven[..], &records(code, chance, half, half)].concat();
    let captures = [
        ("old", &old[..3 * OLD_RECORD + 1], OLD_RECORD),
        ("long-old", &old, OLD_RECORD),
        ("uneven", &uneven, 2 * NEW_RECORD + OLD_RECORD),
        ("long-both", &both, NEW_RECORD),
    ];
    let mut trials = Vec::new();
    for (name, bytes, most) in captures {
        for first in 1..=most {
            let input = Input::Pipe(Pieces { first, next: PIECE });
            trials.push(trial(format!("two-pieces-{name}-{first}"), bytes, input));
        }
    }
    trials
}

/// Captures whose last record isn't there, is cut short or has a wrong mark. A piece ends where it
/// starts, within its mark, behind the mark, within the number or behind that.
fn in_small_pieces(code: &Code, chance: &mut Chance) -> Vec<Trial> {
    let uneven = records_of_numbers(code, chance, &UNEVEN);
    let (old, new) = (records(code, chance, 1, 0), records(code, chance, 0, 1));
    let no_mark = [&[NEW_MARK[0], NEW_MARK[1] + 1], &new[2..]].concat();
    let lasts = [
        ("end", &[][..]),
        ("begun", &new[..1]),
        ("new-98", &new[..98]),
        ("new-99", &new[..99]),
        ("old-97", &old[..97]),
        ("no-mark", &no_mark),
    ];
    let mut trials = Vec::new();
    for (name, last) in lasts {
        let bytes = [&uneven[..], last].concat();
        for next in SMALL_PIECES {
            for behind in 0..next.min(HEAD + 1) {
                let input = Input::Pipe(Pieces {
                    first: (uneven.len() + behind - 1) % next + 1,
                    next,
                });
                let name = format!("pieces-{name}-{next}-{behind}");
                trials.push(trial(name, &bytes, input));
            }
        }
    }
    trials
}
