//! The cases of encoding, reading back, syndromes, distances and codeword bytes.

use super::{refusals, WORD_BOUNDS};
use crate::chance::Chance;
use crate::code::{Code, MESSAGES, POSITIONS, WORDS};
use crate::line::Case;
use crate::words::{any_codeword, any_word, damaged, of_every_sort, word_above};

const EXAMPLE_MESSAGES: [u32; 7] = [0x000, 0x800, 0x400, 0x200, 0x080, 0x020, 0x01F];
const EXAMPLE_WORDS: [u32; 4] = [0x800000, 0x400000, 0x000008, 0x000001];
const MESSAGE_BOUNDS: [u32; 7] = [
    0,
    MESSAGES - 1,
    MESSAGES,
    MESSAGES + 1,
    WORDS - 1,
    WORDS,
    u32::MAX,
];
const BUFFER_LENGTHS: [usize; 6] = [0, 1, 2, 3, 4, 5];

const SEEDED_ROUNDS: usize = 1_000;
const SEEDED_SYNDROMES: usize = 100_000;
const FIXED_ROUNDS: usize = 18;

pub fn seeded(code: &Code, chance: &mut Chance) -> Vec<Case> {
    let mut cases = boundaries(code);
    cases.extend((0..MESSAGES).map(Case::Encode));
    cases.extend(code.codewords.iter().map(|&codeword| Case::Read(codeword)));
    cases.extend(words_of_at_most_two_ones().into_iter().map(Case::Syndrome));
    cases.extend((0..SEEDED_SYNDROMES).map(|_| Case::Syndrome(any_word(chance))));
    cases.extend((0..SEEDED_ROUNDS).flat_map(|_| round(code, chance)));
    cases.extend((0..SEEDED_ROUNDS).flat_map(|_| distances(code, chance)));
    cases
}

pub fn fixed(code: &Code, chance: &mut Chance) -> Vec<Case> {
    let mut cases = examples();
    cases.extend(boundaries(code));
    cases.extend((0..12).map(|i| Case::Encode(1 << i)));
    cases.extend((0..100).map(|_| Case::Encode(chance.below(u64::from(MESSAGES)) as u32)));
    cases.extend(words_of_at_most_two_ones().into_iter().map(Case::Syndrome));
    cases.extend((0..FIXED_ROUNDS).flat_map(|_| round(code, chance)));
    cases.extend(refusals::cases(refusals::golay()));
    cases.extend((0..FIXED_ROUNDS).flat_map(|_| distances(code, chance)));
    cases
}

fn examples() -> Vec<Case> {
    let encoded = EXAMPLE_MESSAGES
        .iter()
        .map(|&message| Case::Encode(message));
    encoded
        .chain(EXAMPLE_WORDS.iter().map(|&word| Case::Syndrome(word)))
        .collect()
}

/// Every refusal at its boundary, and buffers where several apply at once: lengths, then 4, then 5.
fn boundaries(code: &Code) -> Vec<Case> {
    let mut cases: Vec<Case> = MESSAGE_BOUNDS
        .iter()
        .map(|&message| Case::Encode(message))
        .collect();
    let codeword = code.codewords[1];
    let around_codeword = [codeword, codeword ^ 1, WORDS | codeword];
    for &word in WORD_BOUNDS.iter().chain(around_codeword.iter()) {
        cases.push(Case::Syndrome(word));
        cases.push(Case::Read(word));
        cases.extend(
            BUFFER_LENGTHS
                .iter()
                .map(|&length| Case::WriteBytes(word, vec![7; length])),
        );
    }
    for &length in &BUFFER_LENGTHS {
        cases.extend([0, 1, 255].map(|byte| Case::ReadBytes(vec![byte; length])));
    }
    cases
}

fn words_of_at_most_two_ones() -> Vec<u32> {
    let mut words = vec![0];
    for first in 0..POSITIONS {
        words.push(1 << first);
        words.extend((0..first).map(|second| 1 << first | 1 << second));
    }
    words
}

/// One random case of each sort.
fn round(code: &Code, chance: &mut Chance) -> Vec<Case> {
    let above = chance.between(i64::from(MESSAGES), i64::from(u32::MAX)) as u32;
    let mut cases = vec![
        Case::Encode(above),
        Case::Syndrome(word_above(chance, code)),
        Case::Syndrome(any_word(chance)),
    ];
    for word in of_every_sort(chance, code) {
        cases.push(Case::Read(word));
    }
    for &length in &BUFFER_LENGTHS {
        for word in of_every_sort(chance, code) {
            cases.push(Case::WriteBytes(word, chance.bytes(length)));
        }
        cases.extend(byte_readings(code, chance, length));
    }
    cases
}

/// Bytes of a codeword, of a damaged one and of any word, cut or continued to the length.
fn byte_readings(code: &Code, chance: &mut Chance, length: usize) -> Vec<Case> {
    let codeword = any_codeword(chance, code);
    let errors = 1 + chance.below(4) as usize;
    let words = [
        codeword,
        damaged(chance, codeword, errors),
        any_word(chance),
    ];
    let bytes_of = |word: &u32| {
        let mut bytes = word.to_be_bytes()[1..].to_vec();
        bytes.extend(chance.bytes(length));
        bytes.truncate(length);
        Case::ReadBytes(bytes)
    };
    words.iter().map(bytes_of).collect()
}

/// Two words that differ in no position, in one, in all but one, in all and in any number of them;
/// and the first, the second and both above the range.
fn distances(code: &Code, chance: &mut Chance) -> Vec<Case> {
    let any_number = chance.below(POSITIONS as u64 + 1) as usize;
    let changed = [0, 1, POSITIONS - 1, POSITIONS, any_number];
    let mut cases = Vec::from(changed.map(|changed| {
        let word = any_word(chance);
        Case::Distance(word, damaged(chance, word, changed))
    }));
    let (word, above) = (any_word(chance), word_above(chance, code));
    cases.extend([
        Case::Distance(above, word),
        Case::Distance(word, above),
        Case::Distance(above, above),
    ]);
    cases
}
