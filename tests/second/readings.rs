//! Random readings of several kinds, each made to provoke something that a rule speaks of.

use crate::chance::Chance;
use crate::code::{bit_at, Code, COLUMNS, POSITIONS};
use crate::decoders::FORBIDDEN;
use crate::words::{any_codeword, damaged};

/// The largest size of a confidence.
pub const MOST: i64 = 2_147_483_647;

pub type Kind = fn(&mut Chance, &Code) -> Vec<i32>;

pub const KINDS: [Kind; 9] = [
    signal,
    weak_signal,
    weak,
    full_range,
    extremes,
    near_extremes,
    two_weak_columns,
    cancelled_column,
    loud_wrong,
];

/// Kinds for the quick decoder, whose own ties need a word at distance 4.
pub const QUICK_KINDS: [Kind; 3] = [four_wrong, four_wrong_of_one_size, four_wrong_full_range];

/// Kinds for the quick decoder's fillings, which zeros make (9.2).
pub const KINDS_WITH_ZEROS: [Kind; 6] = [
    zeros_and_errors,
    zeros_and_errors_full_range,
    zeros_halfway,
    zeros_halfway_full_range,
    zeros_in_any_kind,
    any_number_of_zeros,
];

/// The reading that speaks for a word with the given sizes; a size below zero speaks against it.
pub fn speaking_for(word: u32, sizes: &[i64]) -> Vec<i32> {
    let signed =
        |(place, &size): (usize, &i64)| (if bit_at(word, place) { -size } else { size }) as i32;
    sizes.iter().enumerate().map(signed).collect()
}

/// The reading with its confidences negated where a word has a 1.
pub fn turned(reading: &[i32], word: u32) -> Vec<i32> {
    let sizes: Vec<i64> = reading.iter().map(|&c| i64::from(c)).collect();
    speaking_for(word, &sizes)
}

/// The reading with a receiver's overflow at one place, the confidence that is refused.
pub fn overflowing(chance: &mut Chance, mut reading: Vec<i32>) -> Vec<i32> {
    reading[chance.below(POSITIONS as u64) as usize] = FORBIDDEN;
    reading
}

pub fn sizes(chance: &mut Chance, least: i64, most: i64) -> Vec<i64> {
    (0..POSITIONS)
        .map(|_| chance.between(least, most))
        .collect()
}

fn signal(chance: &mut Chance, code: &Code) -> Vec<i32> {
    let loudest = 1 << chance.between(1, 29);
    let strength = chance.between(1, loudest);
    let noise = 3 * strength / 2;
    let sizes = sizes(chance, strength - noise, strength + noise);
    speaking_for(any_codeword(chance, code), &sizes)
}

fn weak_signal(chance: &mut Chance, code: &Code) -> Vec<i32> {
    let sizes = sizes(chance, -1, 3);
    speaking_for(any_codeword(chance, code), &sizes)
}

fn weak(chance: &mut Chance, _: &Code) -> Vec<i32> {
    let sizes = sizes(chance, -3, 3);
    speaking_for(0, &sizes)
}

fn full_range(chance: &mut Chance, _: &Code) -> Vec<i32> {
    let sizes = sizes(chance, -MOST, MOST);
    speaking_for(0, &sizes)
}

fn extremes(chance: &mut Chance, _: &Code) -> Vec<i32> {
    (0..POSITIONS)
        .map(|_| chance.pick(&[-MOST, 0, MOST]) as i32)
        .collect()
}

/// Sums that leave 32 bits, and differences so small that rounding would lose them.
fn near_extremes(chance: &mut Chance, code: &Code) -> Vec<i32> {
    let sizes = sizes(chance, MOST - 3, MOST);
    let errors = chance.below(5) as usize;
    let word = any_codeword(chance, code);
    speaking_for(damaged(chance, word, errors), &sizes)
}

/// The runner-up is of the winner's class: turning both weak columns over keeps parity and
/// characters (8.1).
fn two_weak_columns(chance: &mut Chance, code: &Code) -> Vec<i32> {
    let mut sizes = sizes(chance, 50, 100);
    for column in &chance.order(COLUMNS)[..2] {
        for size in &mut sizes[4 * column..4 * column + 4] {
            *size = chance.between(-2, 4);
        }
    }
    speaking_for(any_codeword(chance, code), &sizes)
}

/// One column sum is zero, which favours both interpretations (8.5), or two are, which makes a tie.
fn cancelled_column(chance: &mut Chance, code: &Code) -> Vec<i32> {
    let mut sizes = sizes(chance, 1, 20);
    let many = if chance.one_in(4) { 2 } else { 1 };
    for column in &chance.order(COLUMNS)[..many] {
        let column = &mut sizes[4 * column..4 * column + 4];
        for size in column.iter_mut() {
            *size = chance.between(-20, 20);
        }
        column[3] = -(column[0] + column[1] + column[2]);
    }
    speaking_for(any_codeword(chance, code), &sizes)
}

/// Signs close to a codeword that loud confidences outvote: the quick answer isn't the soft one.
fn loud_wrong(chance: &mut Chance, code: &Code) -> Vec<i32> {
    let mut sizes = sizes(chance, 1, 3);
    let errors = 1 + chance.below(3) as usize;
    for place in &chance.order(POSITIONS)[..errors] {
        sizes[*place] = -chance.between(5, 100);
    }
    speaking_for(any_codeword(chance, code), &sizes)
}

fn four_wrong_of_sizes(chance: &mut Chance, code: &Code, least: i64, most: i64) -> Vec<i32> {
    let word = any_codeword(chance, code);
    let word = damaged(chance, word, 4);
    let sizes = sizes(chance, least, most);
    speaking_for(word, &sizes)
}

/// Sizes from 0: mostly there are more zeros than are filled (9.8).
fn four_wrong(chance: &mut Chance, code: &Code) -> Vec<i32> {
    four_wrong_of_sizes(chance, code, 0, 3)
}

fn four_wrong_of_one_size(chance: &mut Chance, code: &Code) -> Vec<i32> {
    let most = chance.pick(&[2, MOST]);
    four_wrong_of_sizes(chance, code, most - 1, most)
}

fn four_wrong_full_range(chance: &mut Chance, code: &Code) -> Vec<i32> {
    four_wrong_of_sizes(chance, code, 0, MOST)
}

/// Zeros and errors at up to five places of a codeword. With four, one filling is at distance 4 from
/// it, so that costs decide; with five, one is nearer to another codeword.
fn zeros_and_errors_of_sizes(
    chance: &mut Chance,
    code: &Code,
    most: i64,
    loudest: i64,
) -> Vec<i32> {
    let mut sizes = sizes(chance, 1, most);
    let wrong = chance.between(1, 5);
    let zeros = chance.between(1, wrong);
    for (i, place) in (0..wrong).zip(chance.order(POSITIONS)) {
        sizes[place] = if i < zeros {
            0
        } else {
            -chance.between(1, loudest)
        };
    }
    speaking_for(any_codeword(chance, code), &sizes)
}

/// One error among three zeros has to be as loud as four others to tie with them.
fn zeros_and_errors(chance: &mut Chance, code: &Code) -> Vec<i32> {
    zeros_and_errors_of_sizes(chance, code, 3, 12)
}

fn zeros_and_errors_full_range(chance: &mut Chance, code: &Code) -> Vec<i32> {
    zeros_and_errors_of_sizes(chance, code, MOST, MOST)
}

/// Two codewords differ at eight places: four that are zeros or errors, and four others. The filling
/// that lies halfway between the two decides by costs: the errors cost what the others do, and so
/// much more.
pub fn halfway(
    mut sizes: Vec<i64>,
    zeros: &[usize],
    errors: &[usize],
    others: &[usize],
    more: i64,
) -> Vec<i64> {
    let mut cost = more + others.iter().map(|&place| sizes[place]).sum::<i64>();
    for (i, &place) in errors.iter().enumerate() {
        let share = cost / (errors.len() - i) as i64;
        sizes[place] = -share;
        cost -= share;
    }
    zeros.iter().for_each(|&place| sizes[place] = 0);
    sizes
}

/// Costs that are equal or differ by one; a place that is no part of them costs more.
fn zeros_halfway_of_sizes(chance: &mut Chance, code: &Code, most: i64) -> Vec<i32> {
    let mut octads = code.codewords.clone();
    octads.retain(|codeword| codeword.count_ones() == 8);
    let octad = chance.pick(&octads);
    let mut places = chance.order(POSITIONS);
    places.retain(|&place| bit_at(octad, place));
    let (half, others) = places.split_at(4);
    let (zeros, errors) = half.split_at(chance.below(4) as usize);
    let mut sizes = sizes(chance, most - 1, most);
    for &place in others {
        // So that no error has to be louder than the loudest.
        sizes[place] = chance.between(2, errors.len() as i64 * most / 4 - 1);
    }
    let sizes = halfway(sizes, zeros, errors, others, chance.between(-1, 1));
    speaking_for(any_codeword(chance, code), &sizes)
}

fn zeros_halfway(chance: &mut Chance, code: &Code) -> Vec<i32> {
    zeros_halfway_of_sizes(chance, code, 12)
}

fn zeros_halfway_full_range(chance: &mut Chance, code: &Code) -> Vec<i32> {
    zeros_halfway_of_sizes(chance, code, MOST)
}

/// The reading with up to so many zeros at random places.
fn with_zeros(chance: &mut Chance, mut reading: Vec<i32>, most: i64) -> Vec<i32> {
    let zeros = chance.between(0, most) as usize;
    for &place in &chance.order(POSITIONS)[..zeros] {
        reading[place] = 0;
    }
    reading
}

fn zeros_in_any_kind(chance: &mut Chance, code: &Code) -> Vec<i32> {
    let reading = chance.pick(&KINDS)(chance, code);
    with_zeros(chance, reading, 5)
}

/// No error beside them, so that their number alone decides.
fn any_number_of_zeros(chance: &mut Chance, code: &Code) -> Vec<i32> {
    let sizes = sizes(chance, 1, 3);
    let reading = speaking_for(any_codeword(chance, code), &sizes);
    with_zeros(chance, reading, POSITIONS as i64)
}
