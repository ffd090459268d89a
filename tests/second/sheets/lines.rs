//! Runs for every line of a sheet (18.6): each count, each message, the smallest and the total.

use super::trials::{of_files, of_standard, Standard, Trial, Word, BYTE_BY_BYTE, MOST_WORDS};
use crate::capture::{new_record, old_record, NEW_MARK, OLD_MARK};
use crate::chance::Chance;
use crate::code::{Code, MESSAGES, POSITIONS};
use crate::decoders::FORBIDDEN;
use crate::numbers::any_number;
use crate::readings::{speaking_for, MOST};

/// Messages whose numbers have one digit to four, so that their order as texts is another.
const MESSAGES_OF_ALL_LENGTHS: [u32; 14] = [
    4_095, 0, 1_000, 9, 10, 100, 99, 2, 999, 1, 2_048, 11, 2_047, 4_094,
];

pub fn lines(code: &Code, chance: &mut Chance) -> Vec<Trial> {
    let mut trials = vec![every_message(code, chance)];
    trials.extend(worked());
    trials.extend(nothing());
    trials.extend(none_accepted());
    trials.extend(messages(code, chance));
    trials.extend(reserves(code, chance));
    trials
}

/// A record of either kind.
fn any_record(chance: &mut Chance, reading: &[i32]) -> Vec<u8> {
    if chance.one_in(2) {
        old_record(reading)
    } else {
        new_record(any_number(chance), reading)
    }
}

fn clean(code: &Code, message: u32, size: i64) -> Vec<i32> {
    speaking_for(code.codewords[message as usize], &[size; POSITIONS])
}

/// Every message once, in random order and over five files: all the lines that a sheet can have.
fn every_message(code: &Code, chance: &mut Chance) -> Trial {
    let mut files = vec![Vec::new(); MOST_WORDS];
    for (i, message) in chance.order(MESSAGES as usize).into_iter().enumerate() {
        let reading = clean(code, message as u32, chance.between(1, MOST));
        files[i % MOST_WORDS].extend(any_record(chance, &reading));
    }
    of_files("every-message".to_string(), files)
}

fn worked_capture() -> Vec<u8> {
    let records = [1, 0].map(|confidence| old_record(&[confidence; POSITIONS]));
    [&records.concat()[..], &OLD_MARK[..1]].concat()
}

/// The worked capture (18.7) in every way, alone, twice, and with each other way.
fn worked() -> Vec<Trial> {
    let file = Standard::File(worked_capture());
    let pipe = Standard::Pipe(BYTE_BY_BYTE, worked_capture());
    let mut trials = vec![of_files("worked".to_string(), vec![worked_capture()])];
    for (name, standard) in [("file", file), ("pipe", pipe)] {
        trials.push(of_standard(format!("worked-{name}"), &[], standard.clone()));
        let dash = [Word::Dash];
        trials.push(of_standard(
            format!("worked-{name}-dash"),
            &dash,
            standard.clone(),
        ));
        let words = [
            vec![Word::Dash, Word::Dash],
            vec![Word::File(0), Word::Dash],
            vec![Word::Dash, Word::File(0)],
            vec![Word::File(0), Word::Dash, Word::File(0)],
        ];
        for (i, words) in words.into_iter().enumerate() {
            trials.push(Trial {
                name: format!("worked-{name}-{i}"),
                files: vec![worked_capture()],
                words,
                standard: standard.clone(),
            });
        }
    }
    for many in 2..=MOST_WORDS {
        trials.push(Trial {
            words: vec![Word::File(0); many],
            ..of_files(format!("worked-{many}-times"), vec![worked_capture()])
        });
    }
    trials
}

/// No record at all.
fn nothing() -> Vec<Trial> {
    let empty = || Standard::File(Vec::new());
    let mut trials = vec![
        of_standard("nothing".to_string(), &[], Standard::Empty),
        of_standard("nothing-dash".to_string(), &[Word::Dash], Standard::Empty),
        of_standard("nothing-dashes".to_string(), &[Word::Dash; 2], empty()),
        of_standard("nothing-file".to_string(), &[], empty()),
        of_standard(
            "nothing-pipe".to_string(),
            &[],
            Standard::Pipe(BYTE_BY_BYTE, Vec::new()),
        ),
    ];
    for many in 1..=MOST_WORDS {
        trials.push(of_files(format!("nothing-{many}"), vec![Vec::new(); many]));
    }
    trials
}

/// Records, but none that the soft decoder accepts; or stops alone.
fn none_accepted() -> Vec<Trial> {
    let tied = old_record(&[0; POSITIONS]);
    let forbidden = new_record(7, &[FORBIDDEN; POSITIONS]);
    let captures = [
        vec![tied.clone()],
        vec![forbidden.clone()],
        vec![tied.repeat(3), forbidden.repeat(2)],
        vec![[&forbidden[..], &tied].concat(), Vec::new(), tied.clone()],
        vec![OLD_MARK.to_vec()],
        vec![b"\n\n".to_vec(), NEW_MARK.to_vec(), b"I".to_vec()],
        vec![tied[..97].to_vec(), forbidden[..99].to_vec()],
    ];
    let named = |(i, files)| of_files(format!("none-accepted-{i}"), files);
    captures.into_iter().enumerate().map(named).collect()
}

/// Message 0 alone, never and among others, the last message, and messages whose order as texts is
/// another; some of them several times.
fn messages(code: &Code, chance: &mut Chance) -> Vec<Trial> {
    let all = MESSAGES_OF_ALL_LENGTHS;
    let chosen: [&[u32]; 8] = [
        &[0],
        &[0, 0, 0],
        &[7; 300],
        &[MESSAGES - 1],
        &[1, MESSAGES - 1, 1],
        &[MESSAGES - 1, 0],
        &all,
        &[&all[..], &all[5..], &all[10..]].concat(),
    ];
    let mut trials = Vec::new();
    for (i, messages) in chosen.into_iter().enumerate() {
        let mut files = vec![Vec::new(); 1 + i % 3];
        for (j, &message) in messages.iter().enumerate() {
            let reading = clean(code, message, chance.between(1, MOST));
            let which = j % files.len();
            files[which].extend(any_record(chance, &reading));
        }
        trials.push(of_files(format!("messages-{i}"), files));
    }
    trials
}

/// The smallest reserve comes first, last, between larger ones and twice, in one file and over several;
/// and totals that 32 bits don't hold.
fn reserves(code: &Code, chance: &mut Chance) -> Vec<Trial> {
    let sizes: [&[i64]; 7] = [
        &[1, 2, 3],
        &[3, 2, 1],
        &[2, 1, 3],
        &[1, 2, 1],
        &[MOST, 1],
        &[MOST; 9],
        &[1 << 29, (1 << 29) + 1, 1 << 29],
    ];
    let mut trials = Vec::new();
    for (i, sizes) in sizes.into_iter().enumerate() {
        let records: Vec<Vec<u8>> = sizes
            .iter()
            .map(|&size| {
                let message = chance.below(u64::from(MESSAGES)) as u32;
                any_record(chance, &clean(code, message, size))
            })
            .collect();
        trials.push(of_files(
            format!("reserves-{i}-one-file"),
            vec![records.concat()],
        ));
        trials.push(of_files(
            format!("reserves-{i}-files"),
            records.into_iter().take(MOST_WORDS).collect(),
        ));
    }
    trials
}
