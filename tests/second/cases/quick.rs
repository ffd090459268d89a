//! The cases of the quick decoder.

use super::{fillings, refusals, refused_readings, with_confidence, worked_readings};
use crate::chance::Chance;
use crate::code::{Code, COLUMNS, POSITIONS};
use crate::line::Case;
use crate::readings::{KINDS, QUICK_KINDS};

const SEEDED_READINGS: usize = 20_000;
const SEEDED_WITH_ZEROS: usize = 10_000;
const FIXED_READINGS: usize = 1_200;
const FIXED_WITH_ZEROS: usize = 600;

pub fn seeded(code: &Code, chance: &mut Chance) -> Vec<Case> {
    let mut cases = gathered(code, chance, SEEDED_READINGS);
    cases.extend(fillings::cases(code, chance, SEEDED_WITH_ZEROS));
    cases
}

pub fn fixed(code: &Code, chance: &mut Chance) -> Vec<Case> {
    let mut cases = gathered(code, chance, FIXED_READINGS);
    cases.extend(refusals::cases(refusals::quick()));
    cases.extend(fillings::cases(code, chance, FIXED_WITH_ZEROS));
    cases
}

fn gathered(code: &Code, chance: &mut Chance, many: usize) -> Vec<Case> {
    let mut readings = worked_readings();
    readings.extend(ties());
    readings.extend(refused_readings(|i| reading(code, chance, i), &tied()));
    readings.extend((0..many).map(|i| reading(code, chance, i)));
    readings.into_iter().map(Case::Quick).collect()
}

/// The kinds of readings in turn, every second one of the quick decoder's own.
fn reading(code: &Code, chance: &mut Chance, i: usize) -> Vec<i32> {
    let half = i / 2;
    let kind = if i % 2 == 0 {
        QUICK_KINDS[half % QUICK_KINDS.len()]
    } else {
        KINDS[half % KINDS.len()]
    };
    kind(chance, code)
}

/// Column 1 negative, so that each candidate turns one column over: the columns' sizes decide.
fn of_column_sizes(sizes: [i32; COLUMNS]) -> Vec<i32> {
    (0..POSITIONS)
        .map(|place| {
            if place < 4 {
                -sizes[0]
            } else {
                sizes[place / 4]
            }
        })
        .collect()
}

/// All six candidates tie.
pub fn tied() -> Vec<i32> {
    of_column_sizes([1; COLUMNS])
}

/// Column 2 has a zero at its top, and turning it over costs what turning column 1 over does: the
/// filling with a 0 there is tied. The other one is nearer to the codeword that column 2 makes.
pub fn tied_with_zero() -> Vec<i32> {
    with_confidence(&of_column_sizes([3, 4, 4, 4, 4, 4]), 4, 0)
}

/// Six, two or no candidates tied for the smallest sum, and two tied for a sum above the smallest.
fn ties() -> Vec<Vec<i32>> {
    let sizes = [
        [1; 6],
        [1, 1, 2, 2, 2, 2],
        [2, 2, 1, 2, 2, 1],
        [1, 2, 2, 2, 2, 2],
        [3, 2, 2, 3, 1, 3],
        [2, 1, 3, 4, 5, 6],
    ];
    sizes.into_iter().map(of_column_sizes).collect()
}
