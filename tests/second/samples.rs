//! The captures of samples/: what a link's log may look like, for people to try the program on.

use crate::capture::{new_record, old_record, OLD_MARK, OLD_RECORD};
use crate::chance::Chance;
use crate::code::{Code, MESSAGES, POSITIONS};
use crate::numbers::Numbers;
use crate::readings::{overflowing, sizes, speaking_for};
use std::collections::HashMap;

const RECORDS: usize = 200;
/// How loud the bits of a decent signal are, and the largest part of its noise; four parts add up.
const STRENGTH: i64 = 1_000_000;
const NOISE: i64 = 400_000;
/// A speed changes by no more than this from one record to the next.
const SLEW: i64 = 12;
/// So many old records come before the first new one.
const CHANGE_OVER: usize = 60;
/// The new ones' numbers, which pass 65,535 on the way.
const NUMBERS: Numbers = Numbers {
    latest: 65_425,
    one_in: 6,
    steps: &[0, 0, 2, 2, 3, 6, 41, -1, -3],
};

#[derive(Clone, Copy)]
pub enum Sample {
    Decent,
    Weak,
    Damaged,
    Numbered,
}

impl Sample {
    pub fn named(name: &str) -> Option<Sample> {
        match name {
            "decent" => Some(Sample::Decent),
            "weak" => Some(Sample::Weak),
            "damaged" => Some(Sample::Damaged),
            "numbered" => Some(Sample::Numbered),
            _ => None,
        }
    }

    pub fn capture(self, code: &Code, seed: u64) -> Vec<u8> {
        let chance = &mut Chance::from_seed(seed);
        match self {
            Sample::Decent => recorded(&readings(code, chance, decent)),
            Sample::Weak => recorded(&readings(code, chance, weak)),
            Sample::Damaged => {
                with_a_mark_damaged(recorded(&readings(code, chance, decent)), chance)
            }
            Sample::Numbered => changed_over(&readings(code, chance, unsteady), chance),
        }
    }
}

/// One reading for each speed of a pump that is turned up and down slowly.
fn readings(
    code: &Code,
    chance: &mut Chance,
    reading: fn(&mut Chance, u32) -> Vec<i32>,
) -> Vec<Vec<i32>> {
    let most = i64::from(MESSAGES) - 1;
    let mut speed = chance.between(0, most);
    let mut next = || {
        speed = (speed + chance.between(-SLEW, SLEW)).clamp(0, most);
        reading(chance, code.codewords[speed as usize])
    };
    (0..RECORDS).map(|_| next()).collect()
}

fn recorded(readings: &[Vec<i32>]) -> Vec<u8> {
    readings
        .iter()
        .flat_map(|reading| old_record(reading))
        .collect()
}

/// Old records up to the change-over, new ones from then on. What comes again has the reading that
/// its number had before.
fn changed_over(readings: &[Vec<i32>], chance: &mut Chance) -> Vec<u8> {
    let (before, since) = readings.split_at(CHANGE_OVER);
    let mut capture = recorded(before);
    let mut numbers = NUMBERS;
    let mut given = HashMap::new();
    for reading in since {
        let number = numbers.next(chance);
        let reading = given.entry(number).or_insert(reading);
        capture.extend(new_record(number, reading));
    }
    capture
}

fn decent(chance: &mut Chance, codeword: u32) -> Vec<i32> {
    let mut loudness = vec![STRENGTH; POSITIONS];
    for _ in 0..4 {
        let noise = sizes(chance, -NOISE, NOISE);
        loudness
            .iter_mut()
            .zip(noise)
            .for_each(|(loud, noise)| *loud += noise);
    }
    speaking_for(codeword, &loudness)
}

/// Barely more than nothing; now and then with an overflow.
fn weak(chance: &mut Chance, codeword: u32) -> Vec<i32> {
    let loudness = sizes(chance, -3, 7);
    overflowing_at_times(chance, speaking_for(codeword, &loudness))
}

/// Decent, but at times it fades; now and then with an overflow.
fn unsteady(chance: &mut Chance, codeword: u32) -> Vec<i32> {
    if chance.one_in(6) {
        weak(chance, codeword)
    } else {
        let reading = decent(chance, codeword);
        overflowing_at_times(chance, reading)
    }
}

fn overflowing_at_times(chance: &mut Chance, reading: Vec<i32>) -> Vec<i32> {
    if chance.one_in(30) {
        overflowing(chance, reading)
    } else {
        reading
    }
}

/// One bit of a mark turned over, some two thirds of the way.
fn with_a_mark_damaged(mut capture: Vec<u8>, chance: &mut Chance) -> Vec<u8> {
    let damaged = RECORDS * 2 / 3 + chance.below(20) as usize;
    let place = OLD_RECORD * damaged + chance.below(OLD_MARK.len() as u64) as usize;
    capture[place] ^= 1 << chance.below(8);
    capture
}
