//! The cases of the column figures.

use super::{of_length, refusals, with_confidence, worked_readings, WRONG_LENGTHS};
use crate::chance::Chance;
use crate::code::{Code, COLUMNS, POSITIONS};
use crate::decoders::{CLASSES, FORBIDDEN};
use crate::line::Case;
use crate::readings::KINDS;

/// How many readings of each kind are asked for the figures of all classes and columns.
const READINGS_OF_A_KIND: usize = 6;

/// Every class and column, over the worked readings (a tied one, one of zeros and one of the largest
/// size among them) and readings of every kind.
pub fn seeded(code: &Code, chance: &mut Chance) -> Vec<Case> {
    let mut readings = worked_readings();
    readings.push(counting());
    for kind in KINDS.iter().cycle().take(READINGS_OF_A_KIND * KINDS.len()) {
        readings.push(kind(chance, code));
    }
    let mut cases = refused(code, chance);
    for reading in readings {
        cases.extend(everywhere(|| reading.clone()));
    }
    cases
}

/// Every class and column once, the kinds in turn; the first class and the last for the worked
/// readings; and each parity and character for the reading of the worked figures.
pub fn fixed(code: &Code, chance: &mut Chance) -> Vec<Case> {
    let mut kinds = KINDS.iter().cycle();
    let mut cases = everywhere(|| kinds.next().expect("a kind")(chance, code));
    for reading in worked_readings() {
        for class in [0, CLASSES - 1] {
            cases.extend(columns(class, || reading.clone()));
        }
    }
    for class in (0..8).map(|i| 64 * (i / 4) + 21 * (i % 4)) {
        cases.extend(columns(class, counting));
    }
    cases.extend(refused(code, chance));
    cases.extend(refusals::cases(refusals::favours()));
    cases
}

/// The reading of the worked figures (16.8). In class 64 p + 21 x columns 1 to 4 have character x.
fn counting() -> Vec<i32> {
    (1..=POSITIONS as i32).collect()
}

fn columns(class: u32, mut reading: impl FnMut() -> Vec<i32>) -> Vec<Case> {
    (1..=COLUMNS as u32)
        .map(|column| Case::ColumnFigure(class, column, reading()))
        .collect()
}

fn everywhere(mut reading: impl FnMut() -> Vec<i32>) -> Vec<Case> {
    (0..CLASSES)
        .flat_map(|class| columns(class, &mut reading))
        .collect()
}

/// The forbidden confidence at each place, in the asked column or out of it; any class and any column
/// above the range; and wrong lengths: alone, and with the refusals that come after them.
fn refused(code: &Code, chance: &mut Chance) -> Vec<Case> {
    let mut cases = Vec::new();
    let mut of = |reading: &[i32], chosen: &[(u32, u32)]| {
        for &(class, column) in chosen {
            cases.push(Case::ColumnFigure(class, column, reading.to_vec()));
        }
    };
    for place in 0..POSITIONS {
        let reading = KINDS[place % KINDS.len()](chance, code);
        let class = chance.between(i64::from(CLASSES), i64::from(u32::MAX)) as u32;
        let column = chance.between(7, i64::from(u32::MAX)) as u32;
        let inside = 1 + place as u32 / 5;
        let forbidden = with_confidence(&reading, place, FORBIDDEN);
        of(&reading, &[(class, inside), (0, column), (class, column)]);
        of(&forbidden, &[(0, inside), (class, inside), (0, column)]);
    }
    for &length in &WRONG_LENGTHS {
        let reading = of_length(&KINDS[0](chance, code), length);
        of(&reading, &[(0, 1), (CLASSES, 1), (0, 7)]);
    }
    cases
}
