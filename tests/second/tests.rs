//! Tests of the second program itself: worked cases (section 16), rules, line format, comparing.
//!
//! Built by `rustc -O --test --edition 2021 -o target/second-tests tests/second/main.rs`.

mod quick;
mod tally;

use crate::capture;
use crate::captures::{trials, TRIALS};
use crate::cases::{equal, patterns, refusals, Kind};
use crate::chance::Chance;
use crate::code::{
    bit_at, columns, distance, hexacodeword, interpretations, parity, projection, syndrome_of, top,
    top_row_parity, Code, INTERPRETATIONS, WORDS,
};
use crate::compare::compare;
use crate::decoders::for_interpretations;
use crate::line::{cases_of, lent_line, spaced, Case};
use crate::parts;
use crate::readings::KINDS;
use crate::samples::Sample;
use crate::words::{any_word, damaged};
use std::collections::{HashMap, HashSet};
use std::fs;

fn code() -> Code {
    Code::by_the_column_rule()
}

fn answer(line: &str) -> String {
    Case::from_line(line).expect(line).answer_line(&code())
}

/// A reading as the end of a case line, given as runs of a confidence: (how many, which).
fn runs(runs: &[(usize, i64)]) -> String {
    runs.iter()
        .map(|&(many, confidence)| format!(" {confidence}").repeat(many))
        .collect()
}

#[test]
fn worked_messages_encode_and_read_back() {
    let pairs = [
        (0x000, 0x000000),
        (0x800, 0x777778),
        (0x400, 0x500536),
        (0x200, 0x300365),
        (0x080, 0x030356),
        (0x020, 0x003333),
        (0x01F, 0xFFFFFF),
    ];
    for (message, codeword) in pairs {
        assert_eq!(
            answer(&format!("encode {message}")),
            format!("answered {codeword}")
        );
        assert_eq!(
            answer(&format!("read {codeword}")),
            format!("answered {message}")
        );
    }
}

#[test]
fn worked_syndromes() {
    for (word, syndrome) in [
        (0x800000, 0xF80),
        (0x400000, 0xFDE),
        (0x000008, 0x0C0),
        (0x000001, 0x083),
    ] {
        assert_eq!(
            answer(&format!("syndrome {word}")),
            format!("answered {syndrome}")
        );
    }
}

#[test]
fn worked_ranges() {
    assert!(answer("encode 4095").starts_with("answered "));
    assert_eq!(answer("encode 4096"), "refused 3");
    for call in ["read", "syndrome", "correct", "find"] {
        assert_eq!(answer(&format!("{call} {}", 0x1000000)), "refused 4");
    }
}

#[test]
fn worked_hard_cases() {
    assert_eq!(
        answer(&format!("correct {}", 0x777770)),
        format!("answered {} 1", 0x777778)
    );
    assert_eq!(answer(&format!("correct {}", 0xF00000)), "refused 7");
    let six = runs(&[
        (1, 0),
        (1, 0xF0000F),
        (1, 0xF000F0),
        (1, 0xF00F00),
        (1, 0xF0F000),
        (1, 0xFF0000),
    ]);
    assert_eq!(
        answer(&format!("candidates {} 9 9 9 9 9 9", 0xF00000)),
        format!("answered |{six}")
    );
}

#[test]
fn worked_correction_in_two() {
    for (word, pattern, distance, applied) in [
        (0x000000, 0x000000, 0, 0x000000),
        (0x777770, 0x000008, 1, 0x777778),
        (0xF00000, 0x00000F, 4, 0xF0000F),
    ] {
        assert_eq!(
            answer(&format!("find {word}")),
            format!("answered {pattern} {distance}")
        );
        assert_eq!(
            answer(&format!("apply {word} {pattern}")),
            format!("answered {applied}")
        );
    }
    assert_eq!(answer(&format!("apply {} 0", 0x1000000)), "refused 4");
    assert_eq!(answer(&format!("apply 0 {}", 0x1000000)), "refused 4");
}

/// By rule 5.2's own words: of all words, those with fewer ones first and the lesser first among
/// equals, the first that has the syndrome.
#[test]
fn patterns_are_the_first_of_their_syndrome() {
    let code = code();
    let mut first = HashMap::new();
    let mut words = patterns();
    words.sort_by_key(|&word| (word.count_ones(), word));
    for word in words {
        first.entry(syndrome_of(word)).or_insert(word);
    }
    assert_eq!(first.len(), 4_096);
    let chance = &mut Chance::from_seed(5);
    for (_, pattern) in first {
        let word = pattern ^ chance.pick(&code.codewords);
        assert_eq!(code.find(word), Ok((pattern, pattern.count_ones())));
    }
}

#[test]
fn worked_readings() {
    let cases = [
        (runs(&[(24, 1)]), "answered 0 0 24 8", "answered 0"),
        (runs(&[(1, -1), (23, 1)]), "answered 0 0 22 6", "answered 0"),
        (runs(&[(24, 0)]), "refused 6", "refused 14"),
        (runs(&[(1, -100), (23, 1)]), "refused 6", "answered 0"),
        (
            runs(&[(4, -100), (16, 2), (4, 1)]),
            "answered 16 15728655 428 4",
            "answered 15728655",
        ),
        (
            runs(&[(24, 2_147_483_647)]),
            "answered 0 0 51539607528 17179869176",
            "answered 0",
        ),
    ];
    for (reading, soft, quick) in cases {
        assert_eq!(answer(&format!("soft{reading}")), soft);
        assert_eq!(answer(&format!("quick{reading}")), quick);
    }
}

/// Rule 16.6 counts 253 words at 109; the refusal alone would hide a wrong count.
#[test]
fn worked_tie() {
    let code = code();
    let correlation = |codeword: &u32| {
        let signed = |place: u32| {
            let confidence = if place == 23 { -100 } else { 1 };
            if codeword >> place & 1 == 1 {
                -confidence
            } else {
                confidence
            }
        };
        (0..24).map(signed).sum::<i64>()
    };
    let all: Vec<i64> = code.codewords.iter().map(correlation).collect();
    assert_eq!(all.iter().max(), Some(&109));
    assert_eq!(
        all.iter()
            .filter(|&&correlation| correlation == 109)
            .count(),
        253
    );
}

/// A refusal's number alone; what it leaves in lent memory is what was there.
fn refused_line(number: u8, case: &Case) -> String {
    match case {
        Case::WriteBytes(_, lent) => format!("refused {number} |{}", spaced(lent)),
        Case::Candidates(_, lent) => format!("refused {number} |{}", spaced(lent)),
        Case::Count(tally, table, _) => format!("refused {number} |{}", lent_line(tally, table)),
        _ => format!("refused {number}"),
    }
}

#[test]
fn earlier_refusals_come_first() {
    let code = code();
    for rows in [
        refusals::golay,
        refusals::hard,
        refusals::favours,
        refusals::soft,
        refusals::quick,
        refusals::tally,
    ] {
        for (number, case) in rows() {
            let line = case.answer_line(&code);
            if number == 0 {
                assert!(line.starts_with("answered "), "{case}: {line}");
            } else {
                assert_eq!(line, refused_line(number, &case), "{case}");
            }
        }
    }
}

#[test]
fn worked_columns() {
    for (character, [even, odd]) in INTERPRETATIONS.iter().enumerate() {
        for &column in even.iter().chain(odd) {
            assert_eq!(projection(column), character as u32);
        }
        assert!(
            even.iter().all(|&column| parity(column) == 0)
                && odd.iter().all(|&column| parity(column) == 1)
        );
        assert_eq!(even.map(top), [0, 1]);
        assert_eq!(odd.map(top), [0, 1]);
    }
}

/// Rule 2.2, condition by condition; the list of encodings goes by rule 3.4.
fn is_codeword(word: u32) -> bool {
    let columns = columns(word);
    let p = parity(columns[0]);
    let x = columns.map(projection);
    columns.iter().all(|&column| parity(column) == p)
        && top_row_parity(word) == p
        && hexacodeword(x[0], x[1], x[2]) == x
}

#[test]
fn encodings_are_the_codewords_and_have_syndrome_zero() {
    let mut encodings = code().codewords;
    encodings.sort_unstable();
    let defined: Vec<u32> = (0..WORDS).filter(|&word| is_codeword(word)).collect();
    assert_eq!(encodings, defined);
    let zero: Vec<u32> = (0..WORDS).filter(|&word| syndrome_of(word) == 0).collect();
    assert_eq!(encodings, zero);
}

/// Rule 5.1, position by position.
#[test]
fn distance_counts_the_positions_that_differ() {
    let chance = &mut Chance::from_seed(5);
    for changed in (0..=24).cycle().take(2_500) {
        let word = any_word(chance);
        let other = damaged(chance, word, changed);
        let differ = |&place: &usize| bit_at(word, place) != bit_at(other, place);
        assert_eq!((0..24).filter(differ).count(), changed);
        assert_eq!(distance(word, other) as usize, changed);
    }
}

#[test]
fn codewords_differ_in_eight_positions() {
    let codewords = code().codewords;
    for (i, &codeword) in codewords.iter().enumerate() {
        assert!(codewords[..i]
            .iter()
            .all(|&other| distance(codeword, other) >= 8));
    }
}

#[test]
fn patterns_meet_every_syndrome_and_have_one_or_six_nearest() {
    let code = code();
    let mut met = vec![false; 4096];
    assert_eq!(patterns().len(), 1 + 24 + 276 + 2_024 + 10_626);
    for pattern in patterns() {
        met[syndrome_of(pattern) as usize] = true;
        let (distance, found) = code.nearest(pattern);
        assert_eq!(distance, pattern.count_ones());
        assert_eq!(found.len(), if distance == 4 { 6 } else { 1 });
    }
    assert!(met.iter().all(|&met| met));
}

#[test]
fn reserves_are_whole_and_in_range() {
    let code = code();
    let chance = &mut Chance::from_seed(3);
    for kind in KINDS.iter().cycle().take(900) {
        let best = code
            .two_best(&kind(chance, &code))
            .expect("an allowed reading");
        let difference = best.largest - best.second;
        assert!(difference % 2 == 0 && (0..=2 * 17_179_869_176).contains(&difference));
        assert!(best.largest.abs() <= 51_539_607_528);
    }
}

/// The largest class figure is the largest correlation, and the winner's class has it.
#[test]
fn class_figures_agree_with_the_soft_answer() {
    let code = code();
    let chance = &mut Chance::from_seed(4);
    for kind in KINDS.iter().cycle().take(180) {
        let reading = kind(chance, &code);
        let figures: Vec<i64> = (0..128)
            .map(|class| code.class_figure(class, &reading).expect("a figure"))
            .collect();
        let best = code.two_best(&reading).expect("an allowed reading");
        assert_eq!(figures.iter().max(), Some(&best.largest));
        assert_eq!(figures[best.winner / 32], best.largest);
    }
}

/// Rule 16.8, by hand: class, column, what its two interpretations come to.
#[test]
fn worked_column_figures() {
    let reading: Vec<i32> = (1..=24).collect();
    for (class, column, figure) in [
        (0, 1, 1 + 2 + 3 + 4),
        (21, 2, 5 + 6 - 7 - 8),
        (42, 3, 9 - 10 + 11 - 12),
        (63, 4, 13 - 14 - 15 + 16),
        (64, 5, 17 - 18 - 19 - 20),
        (85, 4, 13 - 14 + 15 + 16),
        (106, 3, 9 + 10 - 11 + 12),
        (127, 2, 5 + 6 + 7 - 8),
        (127, 6, 21 - 22 - 23 - 24),
    ] {
        let both = for_interpretations(class, column, &reading);
        assert_eq!(
            both,
            Ok([figure, -figure]),
            "class {class}, column {column}"
        );
    }
}

/// Rules 8.3 and 8.4: the columns of a class's codewords are the two interpretations, whose
/// correlations are opposite; and the six figures' sizes reach the figure of the class, whichever bit
/// a zero is given.
#[test]
fn column_figures_reach_the_class_figure() {
    let code = code();
    let chance = &mut Chance::from_seed(7);
    for kind in KINDS.iter().cycle().take(90) {
        let reading = kind(chance, &code);
        for class in 0..128 {
            let figures: Vec<i64> = (1..=6)
                .map(|column| {
                    let both = for_interpretations(class, column, &reading).expect("a figure");
                    assert_eq!(both[0], -both[1]);
                    both[0]
                })
                .collect();
            let sizes: i64 = figures.iter().map(|figure| figure.abs()).sum();
            let least = figures.iter().map(|figure| figure.abs()).min();
            let favoured_ones = figures.iter().filter(|&&figure| figure < 0).count() as u32;
            let lost = if favoured_ones % 2 == class / 64 {
                0
            } else {
                2 * least.expect("six")
            };
            assert_eq!(code.class_figure(class, &reading), Ok(sizes - lost));
        }
    }
    for (message, &codeword) in code.codewords.iter().enumerate() {
        for (i, column) in columns(codeword).iter().enumerate() {
            let both = interpretations(message as u32 / 32, i as u32 + 1);
            assert_eq!(both[top(*column) as usize], *column);
        }
    }
}

/// Rule 16.10, by hand: the choices, and those where the receivers are exchanged.
#[test]
fn worked_receivers() {
    let code = code();
    let fixed = Kind::Receivers.fixed(&code).expect("fixed cases");
    let choices: Vec<String> = fixed.iter().map(|case| case.answer_line(&code)).collect();
    let expected = [2, 1, 2, 0, 0, 1, 1, 1, 0, 0].map(|choice| format!("answered {choice}"));
    assert_eq!(choices[..10], expected);
    let Case::Better(_, first, second) = &fixed[0] else {
        panic!("no case of two receivers");
    };
    assert_eq!(first[..48], [1; 48]);
    assert_eq!(second[..24], [2; 24]);
    assert_eq!((first.len(), second.len()), (120, 96));
    assert_eq!(code.better(0, first, second).1, [2; 24]);
    assert_eq!(code.better(3, first, second).1, []);
    assert_eq!(
        parts::line_of(&code, &fixed[1]),
        Ok(format!("24{}\n", " 1".repeat(24)))
    );
}

/// What is made to have equal reserves has them, or is tied twice.
#[test]
fn turned_readings_have_one_reserve() {
    let code = code();
    let chance = &mut Chance::from_seed(8);
    for _ in 0..200 {
        let reserves = equal(&code, chance).map(|reading| {
            let answer = code.soft(&reading);
            answer.map(|answer| answer.reserve)
        });
        assert_eq!(reserves[0], reserves[1]);
    }
}

/// Rules 17.6 and 17.7 over the cases: a part is empty or accepted, and with the receivers exchanged
/// it has the same reserve, and is another part only where both have it. Each choice comes up, and so
/// do equal reserves.
#[test]
fn parts_are_accepted_and_exchange() {
    let code = code();
    let cases = Kind::Receivers.seeded(&code, 9).expect("seeded cases");
    let reserve = |part: &[i32]| code.soft(part).map(|answer| answer.reserve);
    let mut often = [0; 3];
    let mut equal = 0;
    for case in &cases {
        let Case::Better(number, first, second) = case else {
            panic!("no case of two receivers");
        };
        let (choice, part) = code.better(*number, first, second);
        let (other_choice, other) = code.better(*number, second, first);
        often[choice as usize] += 1;
        assert_eq!(part.is_empty(), choice == 0);
        assert!(part.is_empty() || reserve(part).is_ok());
        assert_eq!(reserve(part), reserve(other));
        if (choice, other_choice) == (1, 1) {
            equal += 1;
        } else {
            assert_eq!((other_choice, part), ((3 - choice) % 3, other));
        }
    }
    assert!(often.iter().all(|&times| times > 500) && equal > 200);
}

#[test]
fn case_lines_come_back_as_they_were() {
    let code = code();
    for kind in [
        Kind::Golay,
        Kind::Hard,
        Kind::Favours,
        Kind::Soft,
        Kind::Quick,
        Kind::Receivers,
        Kind::Tally,
    ] {
        for case in kind.fixed(&code).expect("fixed cases") {
            assert_eq!(Case::from_line(&case.to_string()), Ok(case));
        }
    }
}

#[test]
fn malformed_lines_are_named() {
    let malformed = [
        "",
        " ",
        "encode",
        "encode ",
        "encode 1 2",
        "encode  1",
        " encode 1",
        "encode 1 ",
        "encode -1",
        "encode +1",
        "encode 01",
        "encode 4294967296",
        "encode x",
        "Encode 1",
        "decode 1",
        "distance",
        "distance 1",
        "distance 1 2 3",
        "write_bytes",
        "write_bytes 1 256",
        "read_bytes -1",
        "candidates",
        "candidates 1 4294967296",
        "class_figure",
        "column_figure",
        "column_figure 1",
        "column_figure 1 -1 2",
        "soft 2147483648",
        "soft -2147483649",
        "soft -0",
        "quick 1.0",
        "quick 1\r",
        "quick 1\t2",
        "better",
        "better 0",
        "better 0 1",
        "better -1 0",
        "better 18446744073709551616 0",
        "count",
        "count 0 0 0 0 0 0",
        "count 0 0 0 0 0 0 4096",
        "count 4294967296 0 0 0 0 0 4096 0",
        "count 0 0 0 0 0 18446744073709551616 4096 0",
        "count 0 0 0 0 -1 0 4096 0",
        "count 0 0 0 0 0 0 8193 0",
        "count 0 0 0 0 0 0 4096 1",
        "count 0 0 0 0 0 0 4096 1 0",
        "count 0 0 0 0 0 0 4096 1 0 0",
        "count 0 0 0 0 0 0 4096 1 4096 1",
        "count 0 0 0 0 0 0 4096 2 1 1 0 1",
        "count 0 0 0 0 0 0 4096 2 1 1 1 1",
        "count 0 0 0 0 0 0 4096 1 0 4294967296",
        "count 0 0 0 0 0 0 4096 0 2147483648",
    ];
    for line in malformed {
        assert!(Case::from_line(line).is_err(), "{line:?}");
        let reason = cases_of("some file", &format!("encode 1\n{line}\nencode 2\n")).unwrap_err();
        assert!(reason.starts_with("some file, line 2: "), "{reason}");
    }
}

/// The report of `compare` on two texts, and whether it passed.
fn compared(name: &str, cases: &str, answers: &str) -> (bool, String) {
    let file = |part: &str| {
        std::env::temp_dir().join(format!("second-{}-{name}.{part}", std::process::id()))
    };
    let (cases_file, answers_file) = (file("cases"), file("answers"));
    fs::write(&cases_file, cases).expect("a file of cases");
    fs::write(&answers_file, answers).expect("a file of answers");
    let report = compare(
        &code(),
        &cases_file.to_string_lossy(),
        &answers_file.to_string_lossy(),
    )
    .expect("readable files");
    fs::remove_file(cases_file).expect("the file of cases");
    fs::remove_file(answers_file).expect("the file of answers");
    (report.passed, report.text)
}

#[test]
fn comparing_counts_cases_and_missing_or_added_lines() {
    let cases = "encode 31\nencode 4096\nsyndrome 1\n";
    let tried = [
        (
            "same",
            "answered 16777215\nrefused 3\nanswered 131\n",
            true,
            "3 passed, 0 failed",
        ),
        (
            "digit",
            "answered 16777215\nrefused 4\nanswered 131\n",
            false,
            "2 passed, 1 failed",
        ),
        (
            "missing",
            "answered 16777215\nrefused 3\n",
            false,
            "2 passed, 1 failed",
        ),
        (
            "added",
            "answered 16777215\nrefused 3\nanswered 131\nanswered 131\n",
            false,
            "3 passed, 1 failed",
        ),
        (
            "blank",
            "answered 16777215\nrefused 3\nanswered 131\n\n",
            false,
            "3 passed, 1 failed",
        ),
        (
            "space",
            "answered 16777215\nrefused 3 \nanswered 131\n",
            false,
            "2 passed, 1 failed",
        ),
        ("none", "", false, "0 passed, 3 failed"),
    ];
    for (name, answers, passed, last) in tried {
        let (was, report) = compared(name, cases, answers);
        assert_eq!(
            (was, report.lines().last()),
            (passed, Some(last)),
            "{report}"
        );
    }
    assert_eq!(
        compared("empty", "", ""),
        (false, "0 passed, 0 failed\n".to_string())
    );
}

/// A record of 24 times one confidence behind the given bytes.
fn record(head: &[u8], confidence: i32) -> Vec<u8> {
    let mut record = head.to_vec();
    (0..24).for_each(|_| record.extend(confidence.to_be_bytes()));
    record
}

fn old(confidence: i32) -> Vec<u8> {
    record(&[0x49, 0x43], confidence)
}

fn new(number: u16, confidence: i32) -> Vec<u8> {
    let (high, low) = (number / 256, number % 256);
    record(&[0x49, 0x44, high as u8, low as u8], confidence)
}

#[test]
fn records_have_the_mark_and_the_most_significant_byte_first() {
    for confidence in [0, 1, -2, 0x0102_0304, i32::MAX, i32::MIN] {
        assert_eq!(capture::old_record(&[confidence; 24]), old(confidence));
        for number in [0, 1, 255, 256, 0x0102, 65_535] {
            let bytes = capture::new_record(number, &[confidence; 24]);
            assert_eq!(bytes, new(number, confidence));
        }
    }
    let mut reading = vec![0; 24];
    reading[0] = 0x0102_0304;
    reading[23] = -2;
    let bytes = capture::old_record(&reading);
    assert_eq!(bytes[..6], [0x49, 0x43, 1, 2, 3, 4]);
    assert_eq!(bytes[94..], [0xFF, 0xFF, 0xFF, 0xFE]);
    let bytes = capture::new_record(0x0506, &reading);
    assert_eq!(bytes[..8], [0x49, 0x44, 5, 6, 1, 2, 3, 4]);
    assert_eq!(bytes[96..], [0xFF, 0xFF, 0xFF, 0xFE]);
}

/// Two trials at once must not write and remove one file. README.md says how many there are.
#[test]
fn captures_tried_have_names_of_their_own() {
    let trials = trials(&code(), &mut Chance::from_seed(5));
    let names: HashSet<&str> = trials.iter().map(|trial| trial.name.as_str()).collect();
    assert_eq!(names.len(), trials.len());
    assert_eq!(trials.len(), TRIALS);
}

/// Among the shorter ones: both stops, and every way for a refused reading's line to end.
#[test]
fn captures_tried_tell_everything() {
    let code = code();
    let mut met = HashSet::new();
    for trial in trials(&code, &mut Chance::from_seed(5)) {
        if trial.bytes.len() < 1_000 {
            let output = capture::output(&code, &trial.bytes);
            let without_offset = |line: &str| line.split(" at ").next().map(str::to_string);
            met.extend(output.lines().filter_map(without_offset));
        }
    }
    let mut wanted = vec!["stopped 9".to_string(), "stopped 10".to_string()];
    for number in [2, 6] {
        for ending in ["", " 0", " 1", " 32766", " 32767", " repeat", " late"] {
            wanted.push(format!("refused {number}{ending}"));
        }
    }
    for line in wanted {
        assert!(met.contains(&line), "{line}");
    }
}

#[test]
fn samples_show_what_they_are_named_for() {
    let code = code();
    let lines = |sample: Sample| capture::output(&code, &sample.capture(&code, 6));
    let decent = lines(Sample::Decent);
    assert!(!decent.contains("refused") && !decent.contains("stopped"));
    let weak = lines(Sample::Weak);
    assert!(weak.contains("refused 6") && weak.contains("refused 2") && !weak.contains("stopped"));
    let damaged = lines(Sample::Damaged);
    assert!(damaged
        .lines()
        .last()
        .expect("a line")
        .starts_with("stopped 9 at "));
    let numbered = lines(Sample::Numbered);
    let told = |line: &&str| line.split(' ').count() == 3;
    assert_eq!(numbered.lines().filter(told).count(), 140);
    assert!(numbered.contains(" repeat\n") && numbered.contains(" late\n"));
    assert!(numbered.contains("refused 6 0\n") && numbered.contains("refused 2 0\n"));
}

/// What is printed behind the header.
fn lines(capture: &[u8]) -> String {
    let output = capture::output(&code(), capture);
    let lines = output.strip_prefix("message reserve\n");
    lines.expect("the header").to_string()
}

#[test]
fn worked_captures_end_and_stop() {
    let (one, zero, lowest) = (old(1), old(0), old(i32::MIN));
    let tried = [
        (
            [&one[..], &zero, &[0x49]].concat(),
            "0 8\nrefused 6\nstopped 10 at 196\n",
        ),
        (vec![], ""),
        ([&lowest[..], &one].concat(), "refused 2\n0 8\n"),
        ([&one[..], &[0x43]].concat(), "0 8\nstopped 10 at 98\n"),
        ([&one[..], &[0x49, 0x42]].concat(), "0 8\nstopped 9 at 98\n"),
        ([&[0x43, 0x49], &one[..]].concat(), "stopped 9 at 0\n"),
        (one[..97].to_vec(), "stopped 10 at 0\n"),
        (one[..2].to_vec(), "stopped 10 at 0\n"),
        ([&one[..], &one[..97]].concat(), "0 8\nstopped 10 at 98\n"),
    ];
    for (capture, expected) in tried {
        assert_eq!(lines(&capture), expected);
    }
}

#[test]
fn captures_of_both_kinds_end_and_stop() {
    let (old, new) = (old(1), new(7, 1));
    let tried = [
        ([&old[..], &new, &old].concat(), "0 8\n0 8 0\n0 8\n"),
        (new[..1].to_vec(), "stopped 10 at 0\n"),
        (new[..2].to_vec(), "stopped 10 at 0\n"),
        (new[..3].to_vec(), "stopped 10 at 0\n"),
        (new[..4].to_vec(), "stopped 10 at 0\n"),
        (new[..98].to_vec(), "stopped 10 at 0\n"),
        (new[..99].to_vec(), "stopped 10 at 0\n"),
        ([&[0x49, 0x45], &new[2..]].concat(), "stopped 9 at 0\n"),
        ([&[0x44, 0x49], &new[..]].concat(), "stopped 9 at 0\n"),
        ([&new[..], &[0x44]].concat(), "0 8 0\nstopped 10 at 100\n"),
        (
            [&new[..], &old[..97]].concat(),
            "0 8 0\nstopped 10 at 100\n",
        ),
        ([&old[..], &new[..98]].concat(), "0 8\nstopped 10 at 98\n"),
        (
            [&new[..], &old, &new[..99]].concat(),
            "0 8 0\n0 8\nstopped 10 at 198\n",
        ),
        (
            [&old[..], &new, &[0x49, 0x45]].concat(),
            "0 8\n0 8 0\nstopped 9 at 198\n",
        ),
    ];
    for (capture, expected) in tried {
        assert_eq!(lines(&capture), expected);
    }
}

#[test]
fn worked_numbers() {
    let capture = [new(7, 1), new(9, 1), new(9, 1), new(8, 1)].concat();
    assert_eq!(lines(&capture), "0 8 0\n0 8 1\n0 8 repeat\n0 8 late\n");
}

#[test]
fn refused_readings_tell_their_numbers_too() {
    let capture = [
        new(1, 0),
        new(3, i32::MIN),
        new(3, 0),
        new(2, i32::MIN),
        old(0),
        new(4, 1),
    ];
    assert_eq!(
        lines(&capture.concat()),
        "refused 6 0\nrefused 2 1\nrefused 6 repeat\nrefused 2 late\nrefused 6\n0 8 0\n"
    );
}

/// What each record tells behind its answer, with a space; the records without a number are old.
fn told(numbers: &[Option<u16>]) -> Vec<String> {
    let record = |number: &Option<u16>| number.map_or(old(1), |number| new(number, 1));
    let capture: Vec<u8> = numbers.iter().flat_map(record).collect();
    let told = |line: &str| line.strip_prefix("0 8").expect("an answer").to_string();
    lines(&capture).lines().map(told).collect()
}

#[test]
fn numbers_wrap_and_pass_over_old_and_late_records() {
    let tried: [(&[Option<u16>], &[&str]); 7] = [
        (&[Some(65_535)], &[" 0"]),
        (&[None, Some(40_000)], &["", " 0"]),
        (
            &[Some(65_534), Some(65_535), Some(0), Some(1)],
            &[" 0", " 0", " 0", " 0"],
        ),
        (
            &[Some(65_530), Some(4), Some(65_535), Some(4)],
            &[" 0", " 9", " late", " repeat"],
        ),
        (
            &[Some(7), None, Some(9), None, Some(9), None, None, Some(8)],
            &[" 0", "", " 1", "", " repeat", "", "", " late"],
        ),
        (
            &[Some(10), Some(8), Some(9), None, Some(11)],
            &[" 0", " late", " late", "", " 0"],
        ),
        (
            &[Some(0), Some(32_768), Some(0), Some(32_769)],
            &[" 0", " 32767", " 32767", " late"],
        ),
    ];
    for (numbers, expected) in tried {
        assert_eq!(told(numbers), expected);
    }
}

/// What a step tells; and what the number tells after it that is one count from the first, by which
/// the number shows that was kept.
#[test]
fn steps_tell_and_keep() {
    let expected = [
        (0, " repeat", " 0"),
        (1, " 0", " repeat"),
        (2, " 1", " late"),
        (3, " 2", " late"),
        (256, " 255", " late"),
        (32_767, " 32766", " late"),
        (32_768, " 32767", " late"),
        (32_769, " late", " 0"),
        (32_770, " late", " 0"),
        (65_534, " late", " 0"),
        (65_535, " late", " 0"),
    ];
    for first in [0, 1, 7, 255, 32_767, 32_768, 32_769, 65_534, 65_535] {
        for (step, told_then, told_next) in expected {
            let number = |step: u32| Some(((first + step) % 65_536) as u16);
            let numbers = [number(0), None, number(step), number(1)];
            assert_eq!(told(&numbers), [" 0", "", told_then, told_next]);
        }
    }
}

#[test]
fn records_start_where_the_run_finds_them() {
    let capture = [old(1), new(7, 0), new(9, 1), old(0)].concat();
    assert_eq!(capture::starts(&capture), [0, 98, 198, 298, 396]);
    assert_eq!(capture::starts(&capture[..395]), [0, 98, 198, 298]);
    assert_eq!(capture::starts(&capture[2..]), [0]);
    assert_eq!(capture::starts(&[]), [0]);
}
