//! Random words: codewords, damaged ones, any words, and words above the range.

use crate::chance::Chance;
use crate::code::{Code, POSITIONS, WORDS};

pub fn any_word(chance: &mut Chance) -> u32 {
    chance.below(u64::from(WORDS)) as u32
}

pub fn any_codeword(chance: &mut Chance, code: &Code) -> u32 {
    chance.pick(&code.codewords)
}

/// A word with the given number of its positions changed.
pub fn damaged(chance: &mut Chance, word: u32, errors: usize) -> u32 {
    chance.order(POSITIONS)[..errors]
        .iter()
        .fold(word, |word, place| word ^ 1 << place)
}

/// A random codeword with each number of errors from none to four.
fn at_each_distance(chance: &mut Chance, code: &Code) -> Vec<u32> {
    let word = |errors| {
        let codeword = any_codeword(chance, code);
        damaged(chance, codeword, errors)
    };
    (0..=4).map(word).collect()
}

/// A word above the range whose lower 24 bits may be a codeword: cutting it down must not pass.
pub fn word_above(chance: &mut Chance, code: &Code) -> u32 {
    let lower = if chance.one_in(2) {
        any_codeword(chance, code)
    } else {
        any_word(chance)
    };
    chance.between(1, 255) as u32 * WORDS | lower
}

/// A word at each distance from the code, any word, and a word above the range.
pub fn of_every_sort(chance: &mut Chance, code: &Code) -> Vec<u32> {
    let mut words = at_each_distance(chance, code);
    words.push(any_word(chance));
    words.push(word_above(chance, code));
    words
}
