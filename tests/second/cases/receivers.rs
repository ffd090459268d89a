//! The cases of two receivers.

use super::{ones, with_confidence, zeros};
use crate::chance::Chance;
use crate::code::{Code, POSITIONS};
use crate::decoders::FORBIDDEN;
use crate::line::Case;
use crate::readings::{speaking_for, turned, KINDS, MOST};
use crate::words::any_codeword;

const SEEDED_PAIRS: usize = 1_500;
const FIXED_PAIRS: usize = 20;

/// The readings that a receiver's buffer has at most.
const MOST_READINGS: usize = 5;

type Readings = [Vec<i32>; 2];

pub fn seeded(code: &Code, chance: &mut Chance) -> Vec<Case> {
    gathered(code, chance, SEEDED_PAIRS)
}

/// The worked ones stand first.
pub fn fixed(code: &Code, chance: &mut Chance) -> Vec<Case> {
    gathered(code, chance, FIXED_PAIRS)
}

fn gathered(code: &Code, chance: &mut Chance, pairs: usize) -> Vec<Case> {
    let mut cases = worked();
    for _ in 0..pairs {
        let [first, second] = buffers(code, chance);
        cases.extend(numbered(chance, &first, &second));
        cases.push(of_another_length(chance, first, second));
    }
    cases
}

/// The worked buffers (16.10), and then the two exchanged.
fn worked() -> Vec<Case> {
    let twos = || vec![2; POSITIONS];
    let first = [ones(), ones(), zeros(), zeros(), twos()].concat();
    let against = with_confidence(&ones(), 0, -100);
    let second = [twos(), ones(), ones(), against].concat();
    let asked = |first: &Vec<i32>, second: &Vec<i32>| {
        let case = |number| Case::Better(number, first.clone(), second.clone());
        (0..5).map(case).collect::<Vec<Case>>()
    };
    [asked(&first, &second), asked(&second, &first)].concat()
}

/// Two buffers of up to five readings each, mostly of as many.
fn buffers(code: &Code, chance: &mut Chance) -> [Vec<i32>; 2] {
    let pairs: Vec<Readings> = (0..MOST_READINGS)
        .map(|_| readings_of_a_pair(code, chance))
        .collect();
    let mut count = || chance.below(MOST_READINGS as u64 + 1) as usize;
    let (mut counts, both) = ([count(), count()], count());
    if both > 1 {
        counts = [both; 2];
    }
    let buffer = |receiver: usize| {
        let readings = pairs.iter().map(|pair| &pair[receiver][..]);
        readings.take(counts[receiver]).flatten().copied().collect()
    };
    [buffer(0), buffer(1)]
}

/// Any two readings; or two with equal reserves, or with nearly equal ones, made on purpose.
fn readings_of_a_pair(code: &Code, chance: &mut Chance) -> Readings {
    match chance.below(4) {
        0 => equal(code, chance),
        1 => nearly_equal(code, chance),
        _ => [any_reading(code, chance), any_reading(code, chance)],
    }
}

/// Of every kind, decent and weak; or tied; or with the forbidden confidence.
fn any_reading(code: &Code, chance: &mut Chance) -> Vec<i32> {
    let reading = chance.pick(&KINDS)(chance, code);
    match chance.below(6) {
        0 => zeros(),
        1 => with_confidence(&reading, chance.below(POSITIONS as u64) as usize, FORBIDDEN),
        _ => reading,
    }
}

/// Another codeword's reading with the same sizes: its correlations are those of the first one, in
/// another order, so that both have one reserve or both are tied.
pub fn equal(code: &Code, chance: &mut Chance) -> Readings {
    let reading = chance.pick(&KINDS)(chance, code);
    let other = turned(&reading, any_codeword(chance, code));
    [reading, other]
}

/// Two clean signals whose sizes differ by one, so that their reserves differ by 8 (7.8); or a clean
/// signal twice, once with a confidence less by one, so that they differ by 1.
fn nearly_equal(code: &Code, chance: &mut Chance) -> Readings {
    let size = chance.between(1, MOST - 1);
    let mut clean = |size: i64| speaking_for(any_codeword(chance, code), &[size; POSITIONS]);
    let mut pair = [clean(size), clean(size + 1)];
    if chance.one_in(2) {
        let place = chance.below(POSITIONS as u64) as usize;
        pair[1] = pair[0].clone();
        pair[1][place] -= pair[0][place].signum();
    }
    if chance.one_in(2) {
        pair.swap(0, 1);
    }
    pair
}

/// Every number up to one above both counts; and a number beyond 32 bits: the largest of all, or one
/// that has a reading's number in its lower bits, or one that 24 times, cut to 64 bits, leads back
/// into the buffer.
fn numbered(chance: &mut Chance, first: &[i32], second: &[i32]) -> Vec<Case> {
    let longer = (first.len().max(second.len()) / POSITIONS) as u64;
    let low = chance.below(longer.max(1));
    let positions = POSITIONS as u64;
    let far = [
        u64::MAX,
        u64::MAX / positions + low,
        1 << 61 | low,
        1 << 32 | low,
        1 << 63 | low,
    ];
    let case = |number| Case::Better(number, first.to_vec(), second.to_vec());
    (0..=longer + 1)
        .chain([chance.pick(&far)])
        .map(case)
        .collect()
}

/// One of the buffers, or both, with a confidence more or less than whole readings have.
fn of_another_length(chance: &mut Chance, mut first: Vec<i32>, mut second: Vec<i32>) -> Case {
    let which = chance.below(3);
    let mut change = |buffer: &mut Vec<i32>| {
        if chance.one_in(2) {
            buffer.push(1);
        } else {
            buffer.pop();
        }
    };
    if which != 0 {
        change(&mut first);
    }
    if which != 1 {
        change(&mut second);
    }
    Case::Better(chance.below(2), first, second)
}
