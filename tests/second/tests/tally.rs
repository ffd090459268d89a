//! Tests of the tally, of the sheet and of what the report program is tried on.

use super::{answer, code, new, old, runs};
use crate::capture;
use crate::cases::Kind;
use crate::chance::Chance;
use crate::code::Code;
use crate::decoders::{Refusal, FORBIDDEN};
use crate::line::Case;
use crate::readings::KINDS;
use crate::sheet::{stop_line, History};
use crate::sheets::{expected, inputs, trials, Trial, Word, TRIALS};
use crate::tally::{Table, Tally};
use std::collections::HashSet;

/// The largest count and the largest total.
const FULL: u64 = 4_294_967_295;
const END: u64 = 9_223_372_036_854_775_807;

/// The line of a call on a tally and on a table of 4,096 counts, given as the case line has its counts.
fn counted(tally: [u64; 6], counts: &str, reading: &str) -> String {
    let many = counts.split_whitespace().count() / 2;
    let numbers: Vec<String> = tally.iter().map(u64::to_string).collect();
    answer(&format!(
        "count {} 4096 {many}{counts}{reading}",
        numbers.join(" ")
    ))
}

fn ones() -> String {
    runs(&[(24, 1)])
}

fn zeros() -> String {
    runs(&[(24, 0)])
}

fn forbidden() -> String {
    runs(&[(23, 1), (1, -2_147_483_648)])
}

#[test]
fn worked_tally() {
    let empty = [0; 6];
    assert_eq!(counted(empty, "", &ones()), "answered | 1 1 0 0 8 8 | 0 1");
    assert_eq!(counted(empty, "", &zeros()), "answered | 1 0 0 1 0 0 |");
    assert_eq!(counted(empty, "", &forbidden()), "answered | 1 0 1 0 0 0 |");
    let one = [1, 1, 0, 0, 8, 8];
    assert_eq!(
        counted(one, " 0 1", &zeros()),
        "answered | 2 1 0 1 8 8 | 0 1"
    );
    assert_eq!(
        counted(one, " 0 1", &runs(&[(4, -100), (16, 2), (4, 1)])),
        "answered | 2 2 0 0 4 12 | 0 1 16 1"
    );
}

#[test]
fn the_smallest_is_kept_or_replaced() {
    for (before, after) in [(0, 8), (1, 1), (7, 7), (8, 8), (9, 8), (u64::MAX, 8)] {
        assert_eq!(
            counted([5, 5, 0, 0, before, 70], " 3 5", &ones()),
            format!("answered | 6 6 0 0 {after} 78 | 0 1 3 5")
        );
        assert_eq!(
            counted([5, 5, 0, 0, before, 70], " 3 5", &zeros()),
            format!("answered | 6 5 0 1 {before} 70 | 3 5")
        );
    }
}

/// Each count at its end: which readings it refuses, and that the others are counted.
#[test]
fn a_full_count_refuses_what_would_move_it() {
    let with = |which: usize, count: u64| {
        let mut tally = [1, 2, 3, 4, 5, 6];
        tally[which] = count;
        tally
    };
    let refused = [
        [true, true, true],
        [true, false, false],
        [false, false, true],
        [false, true, false],
    ];
    for (which, refused) in refused.into_iter().enumerate() {
        for (reading, refused) in [ones(), zeros(), forbidden()].iter().zip(refused) {
            let full = counted(with(which, FULL), " 0 9", reading);
            let below = counted(with(which, FULL - 1), " 0 9", reading);
            assert_eq!(full.starts_with("refused 12 |"), refused, "{full}");
            assert!(below.starts_with("answered |"), "{below}");
        }
    }
    let tally = [1, 2, 3, 4, 5, 6];
    assert_eq!(
        counted(tally, " 0 4294967295", &ones()),
        "refused 12 | 1 2 3 4 5 6 | 0 4294967295"
    );
    assert_eq!(
        counted(tally, " 0 4294967294 1 4294967295", &ones()),
        "answered | 2 3 3 4 5 14 | 0 4294967295 1 4294967295"
    );
    assert_eq!(
        counted(tally, " 0 4294967295", &zeros()),
        "answered | 2 2 3 5 5 6 | 0 4294967295"
    );
}

/// The reserve of 24 ones is 8.
#[test]
fn a_total_refuses_what_would_pass_its_end() {
    for total in [0, END - 9, END - 8] {
        assert_eq!(
            counted([1, 1, 0, 0, 5, total], "", &ones()),
            format!("answered | 2 2 0 0 5 {} | 0 1", total + 8)
        );
    }
    for total in [END - 7, END, END + 1, u64::MAX - 8, u64::MAX - 7, u64::MAX] {
        assert_eq!(
            counted([1, 1, 0, 0, 5, total], "", &ones()),
            format!("refused 12 | 1 1 0 0 5 {total} |")
        );
        assert_eq!(
            counted([1, 1, 0, 0, 5, total], "", &forbidden()),
            format!("answered | 2 1 1 0 5 {total} |")
        );
    }
}

/// What counting a reading would make of the numbers of 18.1, in numbers that have no end: the four
/// counts, the message's count and the total.
fn would_be(code: &Code, tally: &Tally, counts: &[u32], reading: &[i32]) -> [u128; 6] {
    let answer = code.soft(reading);
    let accepted = answer.is_ok();
    let went_up = |count: u32, moves: bool| u128::from(count) + u128::from(moves);
    let (message, reserve) = answer
        .as_ref()
        .map_or((0, 0), |answer| (answer.message as usize, answer.reserve));
    [
        went_up(tally.read, true),
        went_up(tally.accepted, accepted),
        went_up(tally.refused_2, answer == Err(Refusal::ForbiddenConfidence)),
        went_up(tally.refused_6, answer == Err(Refusal::Tied)),
        went_up(counts[message], accepted),
        // A total that doesn't move is never too large.
        if accepted {
            u128::from(tally.total) + reserve as u128
        } else {
            0
        },
    ]
}

/// Rule 18.3 over the seeded cases: refused with 12 exactly where something would pass its end, with
/// nothing moved. Each outcome comes up, and each number is met as the only one to pass its end.
#[test]
fn counting_is_refused_exactly_where_something_would_pass_its_end() {
    let code = code();
    let ends = [FULL, FULL, FULL, FULL, FULL, END].map(u128::from);
    let (mut answered, mut wrong_length, mut full) = (0, 0, 0);
    let mut alone = HashSet::new();
    for case in Kind::Tally.seeded(&code, 9).expect("seeded cases") {
        let Case::Count(tally, table, reading) = case else {
            panic!("no case of counting");
        };
        let (mut after, mut counts) = (tally.clone(), table.whole());
        let counted = code.count(&mut after, &mut counts, &reading);
        if counted.is_err() {
            assert_eq!((&after, &Table::of(&counts)), (&tally, &table));
        }
        if table.length != 4_096 || reading.len() != 24 {
            assert_eq!(counted, Err(Refusal::Length));
            wrong_length += 1;
            continue;
        }
        let numbers = would_be(&code, &tally, &table.whole(), &reading);
        let past: Vec<usize> = (0..6).filter(|&i| numbers[i] > ends[i]).collect();
        assert_eq!(counted == Err(Refusal::CountFull), !past.is_empty());
        match past[..] {
            [] => answered += 1,
            [only] => {
                alone.insert(only);
                full += 1;
            }
            _ => full += 1,
        }
    }
    assert!(answered > 3_000 && wrong_length > 150 && full > 700);
    assert_eq!(alone.len(), 6);
}

/// Rule 18.4: a tally that starts empty and counts one reading after the other says what the history
/// says of them all.
#[test]
fn a_tally_says_what_the_history_says() {
    let code = code();
    let chance = &mut Chance::from_seed(8);
    let (mut tally, mut counts) = (Tally::default(), vec![0; 4_096]);
    let mut history = History::default();
    for (i, kind) in KINDS.iter().cycle().take(900).enumerate() {
        let mut reading = kind(chance, &code);
        if i % 11 == 0 {
            reading[i % 24] = FORBIDDEN;
        }
        assert_eq!(code.count(&mut tally, &mut counts, &reading), Ok(()));
        history.take_in(&code, &capture::old_record(&reading));
    }
    let Tally {
        read,
        accepted,
        refused_2,
        refused_6,
        smallest,
        total,
    } = tally;
    let mut sheet = format!("read {read}\naccepted {accepted}\n");
    sheet += &format!("refused 2 {refused_2}\nrefused 6 {refused_6}\n");
    for (message, count) in Table::of(&counts).counts {
        sheet += &format!("message {message} {count}\n");
    }
    sheet += &format!("smallest {}\ntotal {total}\n", smallest.expect("a reserve"));
    assert_eq!(history.sheet(), sheet);
    assert!(refused_2 > 50 && refused_6 > 50 && accepted == read - refused_2 - refused_6);
}

fn sheet(captures: &[Vec<u8>]) -> String {
    let mut history = History::default();
    for capture in captures {
        history.take_in(&code(), capture);
    }
    history.sheet()
}

#[test]
fn worked_sheet() {
    let capture = [&old(1)[..], &old(0), &[0x49]].concat();
    let expected =
        "read 2\naccepted 1\nrefused 2 0\nrefused 6 1\nmessage 0 1\nsmallest 8\ntotal 8\n";
    assert_eq!(sheet(&[capture.clone()]), expected);
    assert_eq!(stop_line("a b", &capture), "a b: stopped 10 at 196\n");
    assert_eq!(stop_line("a b", &capture[..196]), "");
}

#[test]
fn sheets_without_reserves_have_none() {
    let lines = |read: u32, two: u32, six: u32| {
        format!(
            "read {read}\naccepted 0\nrefused 2 {two}\nrefused 6 {six}\nsmallest none\ntotal 0\n"
        )
    };
    assert_eq!(sheet(&[]), lines(0, 0, 0));
    assert_eq!(sheet(&[vec![], b"II".to_vec()]), lines(0, 0, 0));
    assert_eq!(sheet(&[old(0), new(7, FORBIDDEN)]), lines(2, 1, 1));
}

/// One tally over all captures, of both kinds of records; a stop ends one capture alone (18.5).
#[test]
fn sheets_go_over_all_captures() {
    let against = capture::new_record(9, &[-3; 24]);
    let captures = [
        [&new(7, 2)[..], &[0x49, 0x42], &old(1)].concat(),
        [&old(0)[..], &against, &old(FORBIDDEN)].concat(),
        [&old(1)[..], &old(1)[..97]].concat(),
    ];
    assert_eq!(
        sheet(&captures),
        "read 5\naccepted 3\nrefused 2 1\nrefused 6 1\nmessage 0 2\nmessage 31 1\nsmallest 8\ntotal 48\n"
    );
    assert_eq!(stop_line("x", &captures[0]), "x: stopped 9 at 100\n");
    assert_eq!(stop_line("x", &captures[2]), "x: stopped 10 at 98\n");
}

fn tried() -> Vec<Trial> {
    trials(&code(), &mut Chance::from_seed(5))
}

/// Two trials at once must not write and remove one file. README.md says how many there are.
#[test]
fn reports_tried_have_names_of_their_own() {
    let trials = tried();
    let names: HashSet<&str> = trials.iter().map(|trial| trial.name.as_str()).collect();
    assert_eq!(names.len(), trials.len());
    assert_eq!(trials.len(), TRIALS);
}

/// How often something is met among what there is.
fn times<T>(all: &[T], met: impl Fn(&T) -> bool) -> usize {
    all.iter().filter(|one| met(one)).count()
}

#[test]
fn reports_tried_get_words_of_every_sort() {
    let trials = tried();
    for many in 0..=5 {
        assert!(
            times(&trials, |trial| trial.words.len() == many) > 20,
            "{many}"
        );
    }
    let twice = |trial: &Trial, wanted: Word| times(&trial.words, |&word| word == wanted) > 1;
    assert!(times(&trials, |trial| twice(trial, Word::File(0))) > 20);
    assert!(times(&trials, |trial| twice(trial, Word::Dash)) > 1);
    for word in [Word::Dash, Word::Missing, Word::Folder] {
        let at = |place: usize| times(&trials, |trial| trial.words.get(place) == Some(&word));
        assert!((0..4).all(|place| at(place) > 0), "{word:?}");
    }
    let long = |trial: &Trial| trial.files.iter().any(|file| file.len() > 65_536);
    assert!(times(&trials, long) > 5);
}

/// What is to be written in the runs with shorter captures: the sheet, and the lines beside it.
fn written() -> Vec<(String, String)> {
    let code = code();
    let text = |bytes| String::from_utf8(bytes).expect("a text");
    let short = |trial: &&Trial| trial.files.iter().all(|file| file.len() < 2_000);
    let trials = tried();
    let written = trials
        .iter()
        .filter(short)
        .map(|trial| expected(&code, trial));
    written
        .map(|written| (text(written.output), text(written.errors)))
        .collect()
}

#[test]
fn reports_tried_have_sheets_of_every_sort() {
    let written = written();
    let with = |line: &str| times(&written, |(sheet, _)| sheet.contains(line));
    for line in [
        "smallest none\ntotal 0\n",
        "refused 2 0\n",
        "refused 6 0\n",
        "message 0 ",
        "message 4095 ",
    ] {
        assert!(with(line) > 3, "{line}");
    }
    assert!(with("message ") > with("message 0 ") + 50);
    assert!(times(&written, |(sheet, _)| sheet.is_empty()) > 30);
}

/// Stops in the first file, in a later one and in standard input; some beside others, and those of
/// files beside something that can't be read.
#[test]
fn reports_tried_tell_stops_of_every_sort() {
    let written = written();
    for input in ["-0.capture", "-1.capture", "standard input"] {
        for number in [9, 10] {
            let stop = format!("{input}: stopped {number} at ");
            let told = |errors: &str| errors.contains(&stop);
            assert!(times(&written, |(_, errors)| told(errors)) > 3, "{stop}");
        }
    }
    let stops = |errors: &str| errors.matches(": stopped ").count();
    assert!(times(&written, |(_, errors)| stops(errors) > 1) > 30);
    let without_sheet = |(sheet, errors): &(String, String)| sheet.is_empty() && stops(errors) > 0;
    assert!(times(&written, without_sheet) > 10);
}

/// Where the input comes back to standard input there is nothing left; a run that stopped with 9 need
/// not have read to the end, and what it would find is left open.
#[test]
fn standard_input_is_asked_twice_only_where_it_was_read_to_its_end() {
    for trial in &tried() {
        let inputs = inputs(trial);
        let asked: Vec<_> = inputs
            .iter()
            .filter(|(name, _)| name == "standard input")
            .collect();
        if asked.len() > 1 {
            let bytes = asked[0].1.expect("bytes");
            assert!(!stop_line("", bytes).contains("stopped 9"));
            assert_eq!(asked[1].1, Ok(&[][..]));
        }
    }
}
