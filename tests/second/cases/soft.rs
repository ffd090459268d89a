//! The cases of the soft decoder and of the class figures.

use super::{
    of_length, refusals, refused_readings, sharp, with_confidence, worked_readings, zeros,
    WRONG_LENGTHS,
};
use crate::chance::Chance;
use crate::code::{Code, POSITIONS};
use crate::decoders::{CLASSES, FORBIDDEN};
use crate::line::Case;
use crate::readings::KINDS;

const CLASSES_ABOVE: [u32; 4] = [CLASSES, CLASSES + 1, 256, u32::MAX];

/// How many readings are decoded, taken to all class figures, and changed by their reserve.
struct Amounts {
    decoded: usize,
    classed: usize,
    changed: usize,
}

const SEEDED: Amounts = Amounts {
    decoded: 20_000,
    classed: 500,
    changed: 400,
};

const FIXED: Amounts = Amounts {
    decoded: 360,
    classed: 5,
    changed: 40,
};

pub fn seeded(code: &Code, chance: &mut Chance) -> Result<Vec<Case>, String> {
    gathered(code, chance, SEEDED)
}

pub fn fixed(code: &Code, chance: &mut Chance) -> Result<Vec<Case>, String> {
    let mut cases = gathered(code, chance, FIXED)?;
    cases.extend(refusals::cases(refusals::soft()));
    Ok(cases)
}

fn gathered(code: &Code, chance: &mut Chance, many: Amounts) -> Result<Vec<Case>, String> {
    let mut cases = examples();
    let refused = refused_readings(|i| reading(code, chance, i), &zeros());
    cases.extend(refused.into_iter().map(Case::Soft));
    cases.extend(refused_classes(code, chance));
    cases.extend((0..many.decoded).map(|i| Case::Soft(reading(code, chance, i))));
    for i in 0..many.classed {
        let reading = reading(code, chance, i);
        cases.extend((0..CLASSES).map(|class| Case::ClassFigure(class, reading.clone())));
        let above = chance.between(i64::from(CLASSES), i64::from(u32::MAX)) as u32;
        cases.push(Case::ClassFigure(above, reading));
    }
    cases.extend(sharp::cases(code, chance, many.changed)?);
    Ok(cases)
}

/// The kinds of readings in turn.
fn reading(code: &Code, chance: &mut Chance, i: usize) -> Vec<i32> {
    KINDS[i % KINDS.len()](chance, code)
}

/// The worked readings (16.6), and the classes at both ends of the range for each of them.
fn examples() -> Vec<Case> {
    let mut cases: Vec<Case> = worked_readings().into_iter().map(Case::Soft).collect();
    for reading in worked_readings() {
        cases.push(Case::ClassFigure(0, reading.clone()));
        cases.push(Case::ClassFigure(CLASSES - 1, reading));
    }
    cases
}

/// A class number above 127 alone, and with the refusals that come before it: lengths, then 2.
fn refused_classes(code: &Code, chance: &mut Chance) -> Vec<Case> {
    let mut cases = Vec::new();
    let classes = [0, CLASSES - 1].iter().chain(CLASSES_ABOVE.iter());
    for (i, &class) in classes.enumerate() {
        let reading = reading(code, chance, i);
        cases.push(Case::ClassFigure(class, reading.clone()));
        cases.push(Case::ClassFigure(
            class,
            with_confidence(&reading, 4 * i, FORBIDDEN),
        ));
        for &length in &WRONG_LENGTHS {
            cases.push(Case::ClassFigure(class, of_length(&reading, length)));
            cases.push(Case::ClassFigure(class, vec![FORBIDDEN; length]));
        }
    }
    for place in 0..POSITIONS {
        let forbidden = with_confidence(&reading(code, chance, place), place, FORBIDDEN);
        cases.push(Case::ClassFigure(place as u32, forbidden.clone()));
        cases.push(Case::ClassFigure(CLASSES + place as u32, forbidden));
    }
    cases
}
