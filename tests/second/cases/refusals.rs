//! Each refusal on both sides of its boundary, and the refusals that can apply at once, with the
//! number that comes first (11.2). Number 0 is an answer.

use super::{of_length, ones, quick, with_confidence, zeros};
use crate::code::POSITIONS;
use crate::decoders::FORBIDDEN;
use crate::line::Case;
use crate::tally::{Table, Tally, COUNTS, MOST_COUNT, MOST_TOTAL};

const CODEWORD: u32 = 0xFF_FFFF;
const NO_CODEWORD: u32 = 0xFF_FFFE;
const AT_THREE: u32 = 0x70_0000;
const AT_FOUR: u32 = 0xF0_0000;
/// Added to a word, makes it one above the range: cutting it off must not pass.
const ABOVE: u32 = 0x100_0000;

type Row = (u8, Case);

pub fn cases(rows: Vec<Row>) -> impl Iterator<Item = Case> {
    rows.into_iter().map(|(_, case)| case)
}

pub fn golay() -> Vec<Row> {
    let mut rows = vec![
        (0, Case::Encode(4_095)),
        (3, Case::Encode(4_096)),
        (3, Case::Encode(u32::MAX)),
        (0, Case::Syndrome(NO_CODEWORD)),
        (4, Case::Syndrome(ABOVE)),
        (4, Case::Syndrome(u32::MAX)),
        (0, Case::Read(CODEWORD)),
        (5, Case::Read(NO_CODEWORD)),
        (4, Case::Read(ABOVE)),
        (4, Case::Read(ABOVE + NO_CODEWORD)),
        (0, Case::ReadBytes(vec![255; 3])),
        (5, Case::ReadBytes(vec![255, 255, 254])),
    ];
    for (number, word) in [
        (0, CODEWORD),
        (5, NO_CODEWORD),
        (4, ABOVE + CODEWORD),
        (4, ABOVE + NO_CODEWORD),
    ] {
        rows.push((number, Case::WriteBytes(word, vec![7; 3])));
        rows.extend([0, 1, 2, 4, 5, 24].map(|length| (1, Case::WriteBytes(word, vec![7; length]))));
    }
    for length in [0, 1, 2, 4, 5, 24] {
        rows.extend([255, 254].map(|byte| (1, Case::ReadBytes(vec![byte; length]))));
    }
    rows.extend([
        (0, Case::Distance(CODEWORD, NO_CODEWORD)),
        (4, Case::Distance(ABOVE, CODEWORD)),
        (4, Case::Distance(CODEWORD, ABOVE)),
        (4, Case::Distance(u32::MAX, u32::MAX)),
    ]);
    rows
}

pub fn hard() -> Vec<Row> {
    let mut rows = vec![
        (0, Case::Correct(CODEWORD)),
        (0, Case::Correct(AT_THREE)),
        (7, Case::Correct(AT_FOUR)),
        (4, Case::Correct(ABOVE)),
        (4, Case::Correct(ABOVE + AT_FOUR)),
        (4, Case::Correct(u32::MAX)),
    ];
    for (number, word) in [
        (0, AT_FOUR),
        (8, AT_THREE),
        (8, CODEWORD),
        (4, ABOVE + AT_FOUR),
        (4, ABOVE + AT_THREE),
    ] {
        rows.push((number, Case::Candidates(word, vec![7; 6])));
        rows.extend(
            [0, 1, 2, 3, 4, 5, 7, 24].map(|count| (1, Case::Candidates(word, vec![7; count]))),
        );
    }
    rows.extend([
        (0, Case::Find(CODEWORD)),
        (0, Case::Find(AT_THREE)),
        (0, Case::Find(AT_FOUR)),
        (4, Case::Find(ABOVE)),
        (4, Case::Find(ABOVE + AT_FOUR)),
        (4, Case::Find(u32::MAX)),
        (0, Case::Apply(CODEWORD, CODEWORD)),
        (4, Case::Apply(ABOVE, NO_CODEWORD)),
        (4, Case::Apply(NO_CODEWORD, ABOVE)),
        (4, Case::Apply(ABOVE, ABOVE)),
        (4, Case::Apply(u32::MAX, u32::MAX)),
    ]);
    rows
}

/// A call on a reading, which gives one number where no word ties and one where some do.
fn of_readings(call: impl Fn(Vec<i32>) -> Case, clear: u8, tied: &[i32], tie: u8) -> Vec<Row> {
    let mut rows = vec![
        (clear, call(ones())),
        (clear, call(vec![FORBIDDEN + 1; POSITIONS])),
        (tie, call(tied.to_vec())),
    ];
    for place in [0, 11, 23] {
        rows.push((2, call(with_confidence(&ones(), place, FORBIDDEN))));
        rows.push((2, call(with_confidence(tied, place, FORBIDDEN))));
    }
    for length in [0, 1, 6, 23, 25, 48] {
        rows.push((1, call(of_length(&ones(), length))));
        rows.push((1, call(of_length(tied, length))));
        rows.push((1, call(vec![FORBIDDEN; length])));
    }
    rows
}

/// The number that comes first where a length, a confidence, a class and a column may all be wrong.
fn first_of_four(length: usize, confidence: i32, class: u32, column: u32) -> u8 {
    let wrong = [
        (1, length != POSITIONS),
        (2, confidence == FORBIDDEN),
        (11, class > 127),
        (18, !(1..=6).contains(&column)),
    ];
    wrong.iter().find(|row| row.1).map_or(0, |row| row.0)
}

pub fn favours() -> Vec<Row> {
    let mut rows = Vec::new();
    for length in [0, 23, 24, 25] {
        for confidence in [FORBIDDEN, FORBIDDEN + 1] {
            for class in [0, 127, 128, u32::MAX] {
                for column in [0, 1, 6, 7, u32::MAX] {
                    rows.push((
                        first_of_four(length, confidence, class, column),
                        Case::ColumnFigure(class, column, vec![confidence; length]),
                    ));
                }
            }
        }
    }
    rows
}

pub fn soft() -> Vec<Row> {
    let mut rows = of_readings(Case::Soft, 0, &zeros(), 6);
    for (number, class) in [(0, 0), (0, 127), (11, 128), (11, u32::MAX)] {
        let figure = |reading| Case::ClassFigure(class, reading);
        rows.extend(of_readings(figure, number, &zeros(), number));
    }
    rows
}

/// Clear readings with one zero, with as many as are filled and with one more; nothing but zeros; and
/// a zero beside a tie.
fn readings_with_zeros() -> [(u8, Vec<i32>); 5] {
    let clear = |zeros| [vec![0; zeros], vec![1; POSITIONS - zeros]].concat();
    [
        (0, clear(1)),
        (0, clear(4)),
        (14, clear(5)),
        (14, zeros()),
        (14, quick::tied_with_zero()),
    ]
}

pub fn quick() -> Vec<Row> {
    let mut rows = of_readings(Case::Quick, 0, &quick::tied(), 6);
    for (number, reading) in readings_with_zeros() {
        rows.push((number, Case::Quick(reading.clone())));
        for place in [0, 11, 23] {
            let forbidden = with_confidence(&reading, place, FORBIDDEN);
            rows.push((2, Case::Quick(forbidden.clone())));
            rows.extend([1, 23, 25].map(|length| (1, Case::Quick(of_length(&forbidden, length)))));
        }
        rows.extend([1, 23, 25, 48].map(|length| (1, Case::Quick(of_length(&reading, length)))));
    }
    rows
}

/// A tally with all counts at a number, and a table with the first one and the last there.
fn at(count: u32, total: u64, length: usize) -> (Tally, Table) {
    let tally = Tally {
        read: count,
        accepted: count,
        refused_2: count,
        refused_6: count,
        smallest: None,
        total,
    };
    let mut counts = vec![0; length];
    for place in [0, length.wrapping_sub(1)] {
        counts.get_mut(place).map(|place| *place = count);
    }
    (tally, Table::of(&counts))
}

/// The lengths of table and reading, and counts at their end, where soft accepts the reading with the
/// reserve 8, refuses it with 6 and with 2.
pub fn tally() -> Vec<Row> {
    let forbidden = with_confidence(&ones(), 11, FORBIDDEN);
    let mut rows = Vec::new();
    let mut row = |table: usize, reading: Vec<i32>, count: u32, total: u64, full: bool| {
        let lengths_hold = table == COUNTS && reading.len() == POSITIONS;
        let number = match (lengths_hold, full) {
            (false, _) => 1,
            (true, full) => 12 * u8::from(full),
        };
        let (tally, table) = at(count, total, table);
        rows.push((number, Case::Count(tally, table, reading)));
    };
    for table in [0, 1, COUNTS - 1, COUNTS, COUNTS + 1] {
        for length in [0, 23, 24, 25] {
            for reading in [ones(), zeros(), forbidden.clone()] {
                let reading = of_length(&reading, length);
                for count in [0, MOST_COUNT - 1, MOST_COUNT] {
                    row(table, reading.clone(), count, 0, count == MOST_COUNT);
                }
            }
        }
        for total in [MOST_TOTAL - 8, MOST_TOTAL - 7, MOST_TOTAL, u64::MAX] {
            row(table, ones(), 0, total, total != MOST_TOTAL - 8);
            row(table, zeros(), 0, total, false);
            row(table, forbidden.clone(), 0, total, false);
        }
    }
    rows
}
