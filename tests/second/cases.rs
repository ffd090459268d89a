//! The kinds of cases: which ones a seed gives, and the fixed ones that are kept as fixtures.

mod favours;
mod fillings;
mod golay;
mod hard;
mod quick;
mod receivers;
pub mod refusals;
mod sharp;
mod soft;
mod tally;

use crate::chance::Chance;
use crate::code::{Code, POSITIONS, WORDS};
use crate::decoders::FORBIDDEN;
use crate::line::Case;

#[cfg(test)]
pub use hard::patterns;
#[cfg(test)]
pub use receivers::equal;

#[derive(Clone, Copy)]
pub enum Kind {
    Golay,
    Hard,
    Favours,
    Soft,
    Quick,
    Receivers,
    Tally,
}

/// The sample of the fixed cases is random too, from this seed.
const FIXED_SEED: u64 = 1;

impl Kind {
    pub fn named(name: &str) -> Option<Kind> {
        match name {
            "golay" => Some(Kind::Golay),
            "hard" => Some(Kind::Hard),
            "favours" => Some(Kind::Favours),
            "soft" => Some(Kind::Soft),
            "quick" => Some(Kind::Quick),
            "receivers" => Some(Kind::Receivers),
            "tally" => Some(Kind::Tally),
            _ => None,
        }
    }

    pub fn seeded(self, code: &Code, seed: u64) -> Result<Vec<Case>, String> {
        let chance = &mut Chance::from_seed(seed);
        match self {
            Kind::Golay => Ok(golay::seeded(code, chance)),
            Kind::Hard => Ok(hard::seeded(code, chance)),
            Kind::Favours => Ok(favours::seeded(code, chance)),
            Kind::Soft => soft::seeded(code, chance),
            Kind::Quick => Ok(quick::seeded(code, chance)),
            Kind::Receivers => Ok(receivers::seeded(code, chance)),
            Kind::Tally => Ok(tally::seeded(code, chance)),
        }
    }

    pub fn fixed(self, code: &Code) -> Result<Vec<Case>, String> {
        let chance = &mut Chance::from_seed(FIXED_SEED);
        match self {
            Kind::Golay => Ok(golay::fixed(code, chance)),
            Kind::Hard => Ok(hard::fixed(code, chance)),
            Kind::Favours => Ok(favours::fixed(code, chance)),
            Kind::Soft => soft::fixed(code, chance),
            Kind::Quick => Ok(quick::fixed(code, chance)),
            Kind::Receivers => Ok(receivers::fixed(code, chance)),
            Kind::Tally => Ok(tally::fixed(code, chance)),
        }
    }
}

/// Words on both sides of the largest one.
const WORD_BOUNDS: [u32; 6] = [0, WORDS - 1, WORDS, WORDS + 1, 1 << 31, u32::MAX];

/// A reading of another length, cut from the given one or continued by its beginning.
fn of_length(reading: &[i32], length: usize) -> Vec<i32> {
    reading.iter().cycle().take(length).copied().collect()
}

fn with_confidence(reading: &[i32], place: usize, confidence: i32) -> Vec<i32> {
    let mut changed = reading.to_vec();
    changed[place] = confidence;
    changed
}

/// Lengths other than that of a reading.
const WRONG_LENGTHS: [usize; 7] = [0, 1, 12, 23, 25, 26, 48];

fn ones() -> Vec<i32> {
    vec![1; POSITIONS]
}

fn zeros() -> Vec<i32> {
    vec![0; POSITIONS]
}

/// Wrong lengths, the forbidden confidence and its neighbour at each place, and both at once. Most
/// stand in readings that are made for the purpose; zeros and the tied reading would be refused
/// with a later number but for this one.
fn refused_readings(mut reading: impl FnMut(usize) -> Vec<i32>, tied: &[i32]) -> Vec<Vec<i32>> {
    let mut readings = Vec::new();
    for place in 0..POSITIONS {
        let reading = reading(place);
        readings.push(with_confidence(&reading, place, FORBIDDEN));
        readings.push(with_confidence(&reading, place, FORBIDDEN + 1));
        readings.push(with_confidence(&zeros(), place, FORBIDDEN));
    }
    for &length in &WRONG_LENGTHS {
        readings.push(of_length(&ones(), length));
        readings.push(of_length(tied, length));
        readings.push(of_length(&reading(length), length));
        readings.push(vec![FORBIDDEN; length]);
    }
    readings
}

/// The worked readings (16.6), for the soft and the quick decoder together.
fn worked_readings() -> Vec<Vec<i32>> {
    let mut ends_loud = vec![2; POSITIONS];
    ends_loud[..4].fill(-100);
    ends_loud[20..].fill(1);
    vec![
        ones(),
        with_confidence(&ones(), 0, -1),
        zeros(),
        with_confidence(&ones(), 0, -100),
        ends_loud,
        vec![i32::MAX; POSITIONS],
    ]
}
