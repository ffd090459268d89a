//! The captures that the program is tried on, and how it gets each.

use super::damage::damaged;
use super::input::Input;
use super::pieces::in_pieces;
use super::records::{records, records_of_numbers, UNEVEN};
use crate::capture::{new_record, old_record, starts, NEW_MARK, OLD_MARK};
use crate::chance::Chance;
use crate::code::{Code, MESSAGES, POSITIONS};
use crate::decoders::FORBIDDEN;
use crate::numbers::after;
use crate::readings::{speaking_for, MOST};
use crate::runs::child::Pieces;

pub struct Trial {
    /// No two have the same name: it names the file.
    pub name: String,
    pub bytes: Vec<u8>,
    pub input: Input,
}

/// README.md has this number too. What the other trials leave of it are damaged captures.
pub const TRIALS: usize = 7_000;

const LONG_RECORDS: usize = 100_000;
const LONGEST_LINES: i64 = 6_000;
const LONGEST_CUT: usize = 300;
const CHANGED_BYTES: usize = 400;
const RANDOM: usize = 60;

/// What a changed byte becomes at a mark: bytes of the marks, their neighbours and the ends.
const MARK_BYTES: [u8; 8] = [0x00, 0x0A, 0x42, 0x43, 0x44, 0x45, 0x49, 0xFF];

/// Previous numbers: the ends of 8 and of 16 bits, with a sign and without, and their neighbours.
const PREVIOUS: [u16; 12] = [
    0, 1, 2, 255, 256, 32_766, 32_767, 32_768, 32_769, 65_533, 65_534, 65_535,
];

pub const WHOLE: [Input; 3] = [Input::Argument, Input::StandardInput, Input::Dash];

const BYTE_BY_BYTE: Input = Input::Pipe(Pieces { first: 1, next: 1 });

pub fn trials(code: &Code, chance: &mut Chance) -> Vec<Trial> {
    // The longest comes first, so that the other thread goes on meanwhile.
    let mut trials = vec![long(code, chance)];
    trials.extend(longest_lines(code));
    trials.extend(unreadable());
    trials.extend(short());
    trials.extend(cut(code, chance));
    trials.extend(changed(code, chance));
    trials.extend(random(code, chance));
    trials.extend(steps(code, chance));
    trials.extend(in_pieces(code, chance));
    let others = trials.len();
    trials.extend((others..TRIALS).map(|i| fuzzed(code, chance, i)));
    trials
}

pub fn trial(name: String, bytes: &[u8], input: Input) -> Trial {
    Trial {
        name,
        bytes: bytes.to_vec(),
        input,
    }
}

/// One byte too many, so that an offset of seven digits is printed.
fn long(code: &Code, chance: &mut Chance) -> Trial {
    let half = LONG_RECORDS / 2;
    let bytes = [records(code, chance, half, half), vec![OLD_MARK[0]]].concat();
    trial("long".to_string(), &bytes, Input::Argument)
}

/// The longest lines that there are, of 24 bytes, and the longest with a loss: more than two pieces
/// of 64 KiB are to be written.
fn longest_lines(code: &Code) -> Vec<Trial> {
    let last = code.codewords[MESSAGES as usize - 1];
    let reading = speaking_for(last, &[MOST; POSITIONS]);
    let of_step = |(name, step): (&str, i64)| {
        let bytes: Vec<u8> = (0..LONGEST_LINES)
            .flat_map(|i| new_record(after(0, i * step), &reading))
            .collect();
        trial(format!("longest-lines-{name}"), &bytes, Input::Argument)
    };
    [("repeat", 0), ("lost", 32_768)]
        .into_iter()
        .map(of_step)
        .collect()
}

fn unreadable() -> Vec<Trial> {
    let inputs = [
        ("missing-file", Input::MissingFile),
        ("folder", Input::Folder),
        ("folder-as-standard-input", Input::FolderAsStandardInput),
        ("closed-standard-input", Input::ClosedStandardInput),
    ];
    inputs
        .into_iter()
        .map(|(name, input)| trial(name.to_string(), &[], input))
        .collect()
}

/// The worked captures (13.7, 13.9) and the least ones, each given in every way.
fn short() -> Vec<Trial> {
    let (ones, zeros) = (old_record(&[1; POSITIONS]), old_record(&[0; POSITIONS]));
    let refused = old_record(&[FORBIDDEN; POSITIONS]);
    let numbered = |numbers: [u16; 4]| {
        numbers
            .map(|number| new_record(number, &[1; POSITIONS]))
            .concat()
    };
    let new_refused = new_record(0, &[FORBIDDEN; POSITIONS]);
    let captures = [
        ("worked", [&ones[..], &zeros, &OLD_MARK[..1]].concat()),
        ("worked-numbers", numbered([7, 9, 9, 8])),
        ("wrap", numbered([65_534, 65_535, 0, 1])),
        ("empty", Vec::new()),
        ("old-mark", OLD_MARK.to_vec()),
        ("new-mark", NEW_MARK.to_vec()),
        ("new-mark-and-number", new_refused[..4].to_vec()),
        ("mark-begun", OLD_MARK[..1].to_vec()),
        ("other-byte", vec![OLD_MARK[1]]),
        ("other-bytes", vec![OLD_MARK[1], OLD_MARK[0]]),
        ("line-feed", vec![b'\n']),
        ("ones", ones.clone()),
        ("refused-and-mark", [&refused[..], &OLD_MARK].concat()),
        (
            "refused-and-new-mark",
            [&new_refused[..], &NEW_MARK].concat(),
        ),
    ];
    let inputs = [&WHOLE[..], &[BYTE_BY_BYTE]].concat();
    let mut trials = Vec::new();
    for (name, bytes) in captures {
        for (i, &input) in inputs.iter().enumerate() {
            trials.push(trial(format!("{name}-{i}"), &bytes, input));
        }
    }
    trials
}

/// Old records alone, and records of both kinds.
fn old_and_uneven(code: &Code, chance: &mut Chance) -> [(&'static str, Vec<u8>); 2] {
    [
        ("old", records(code, chance, 5, 0)),
        ("uneven", records_of_numbers(code, chance, &UNEVEN)),
    ]
}

fn cut(code: &Code, chance: &mut Chance) -> Vec<Trial> {
    let mut trials = Vec::new();
    for (kind, bytes) in old_and_uneven(code, chance) {
        for length in 0..=LONGEST_CUT {
            let name = format!("cut-{kind}-{length}");
            let input = WHOLE[length % WHOLE.len()];
            trials.push(trial(name, &bytes[..length], input));
        }
    }
    trials
}

fn changed(code: &Code, chance: &mut Chance) -> Vec<Trial> {
    let mut trials = Vec::new();
    for (kind, bytes) in old_and_uneven(code, chance) {
        let bytes = &bytes[..CHANGED_BYTES];
        let starts = starts(bytes);
        for place in 0..CHANGED_BYTES {
            let in_mark = |&start: &usize| place == start || place == start + 1;
            let other = bytes[place] ^ chance.between(1, 255) as u8;
            let tried = if starts.iter().any(in_mark) {
                MARK_BYTES.to_vec()
            } else {
                vec![other]
            };
            for byte in tried {
                let name = format!("changed-{kind}-{place}-{byte}");
                let input = WHOLE[place % WHOLE.len()];
                trials.push(trial(name, &with_byte(bytes, place, byte), input));
            }
        }
    }
    trials
}

pub fn with_byte(bytes: &[u8], place: usize, byte: u8) -> Vec<u8> {
    let mut changed = bytes.to_vec();
    changed[place] = byte;
    changed
}

/// Random bytes, bare and behind either mark, random old records, and random records of both kinds.
fn random(code: &Code, chance: &mut Chance) -> Vec<Trial> {
    let mut trials = Vec::new();
    for i in 0..RANDOM {
        let bare = chance.bytes(4 * i);
        let new = chance.below(i as u64 + 1) as usize;
        let captures = [
            ("bytes", bare.clone()),
            ("old-mark-and-bytes", [&OLD_MARK, &bare[..]].concat()),
            ("new-mark-and-bytes", [&NEW_MARK, &bare[..]].concat()),
            ("old-records", records(code, chance, i, 0)),
            ("records", records(code, chance, i - new, new)),
        ];
        for (name, bytes) in captures {
            let input = WHOLE[i % WHOLE.len()];
            trials.push(trial(format!("{name}-{i}"), &bytes, input));
        }
    }
    trials
}

/// Every step at and beside the ends of what a step tells (12.6), old records between some. The last
/// number is one count from the first, and tells which number was kept (12.7).
fn steps(code: &Code, chance: &mut Chance) -> Vec<Trial> {
    let mut trials = Vec::new();
    for previous in PREVIOUS {
        for step in (-3..=3).chain(32_765..=32_771) {
            let number = after(previous, step);
            let mut numbers = vec![Some(previous), Some(number), Some(after(previous, 1))];
            for place in [2, 1] {
                if chance.one_in(2) {
                    numbers.insert(place, None);
                }
            }
            let bytes = records_of_numbers(code, chance, &numbers);
            let input = WHOLE[trials.len() % WHOLE.len()];
            trials.push(trial(format!("step-{previous}-{number}"), &bytes, input));
        }
    }
    trials
}

fn fuzzed(code: &Code, chance: &mut Chance, i: usize) -> Trial {
    let bytes = damaged_records(code, chance);
    trial(format!("fuzzed-{i}"), &bytes, WHOLE[i % WHOLE.len()])
}

pub fn damaged_records(code: &Code, chance: &mut Chance) -> Vec<u8> {
    let many = chance.between(1, 6) as usize;
    let new = chance.below(many as u64 + 1) as usize;
    let capture = records(code, chance, many - new, new);
    let other = records(code, chance, 1, 1);
    damaged(chance, &capture, &other)
}
