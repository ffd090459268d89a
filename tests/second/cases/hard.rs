//! The cases of correction, of the six candidates, and of correction in two: finding and applying.

use super::{refusals, WORD_BOUNDS};
use crate::chance::Chance;
use crate::code::{Code, POSITIONS, WORDS};
use crate::line::Case;
use crate::words::{any_codeword, any_word, of_every_sort};

const EXAMPLE_WORDS: [u32; 2] = [0x777770, 0xF00000];
const SLOT_COUNTS: [usize; 4] = [0, 5, 6, 7];

const SEEDED_ROUNDS: usize = 1_000;
const SEEDED_WORDS: usize = 100_000;
const SEEDED_PAIRS: usize = 20_000;
const REPRESENTATIVES: usize = 3;
const FIXED_ROUNDS: usize = 25;
const FIXED_PAIRS: usize = 100;
const FIXED_PATTERNS_EACH: usize = 15;

pub fn seeded(code: &Code, chance: &mut Chance) -> Vec<Case> {
    let mut cases = examples();
    cases.extend(boundaries(code));
    for pattern in patterns() {
        cases.extend(
            (0..REPRESENTATIVES).map(|_| Case::Correct(pattern ^ any_codeword(chance, code))),
        );
        cases.push(Case::Candidates(
            pattern ^ any_codeword(chance, code),
            slots(chance, 6),
        ));
    }
    cases.extend((0..SEEDED_WORDS).map(|_| Case::Correct(any_word(chance))));
    cases.extend((0..SEEDED_ROUNDS).flat_map(|_| round(code, chance)));
    cases.extend(boundaries_in_two());
    for pattern in patterns() {
        cases.extend((0..REPRESENTATIVES).flat_map(|_| in_two(pattern, code, chance)));
    }
    cases.extend((0..SEEDED_PAIRS).map(|_| any_pair(code, chance)));
    cases
}

pub fn fixed(code: &Code, chance: &mut Chance) -> Vec<Case> {
    let mut cases = examples();
    cases.extend(boundaries(code));
    // Every so many patterns only: the list must stay short enough to be looked at.
    for pattern in patterns().into_iter().step_by(FIXED_PATTERNS_EACH) {
        cases.push(Case::Correct(pattern ^ any_codeword(chance, code)));
    }
    cases.extend((0..FIXED_ROUNDS).flat_map(|_| round(code, chance)));
    cases.extend(refusals::cases(refusals::hard()));
    cases.extend(boundaries_in_two());
    for pattern in patterns().into_iter().step_by(3 * FIXED_PATTERNS_EACH) {
        cases.extend(in_two(pattern, code, chance));
    }
    cases.extend((0..FIXED_PAIRS).map(|_| any_pair(code, chance)));
    cases
}

fn examples() -> Vec<Case> {
    let asked = |&word: &u32| [Case::Correct(word), Case::Candidates(word, vec![7; 6])];
    EXAMPLE_WORDS.iter().flat_map(asked).collect()
}

/// Every refusal at its boundary, and slots where several apply at once: lengths, then 4, then 8.
fn boundaries(code: &Code) -> Vec<Case> {
    let far = EXAMPLE_WORDS[1];
    let own = [
        code.codewords[1],
        code.codewords[1] ^ far,
        WORDS | far,
        0x100,
        0x110,
        0x111,
    ];
    let mut cases = Vec::new();
    for &word in WORD_BOUNDS.iter().chain(own.iter()) {
        cases.push(Case::Correct(word));
        cases.extend(
            SLOT_COUNTS
                .iter()
                .map(|&count| Case::Candidates(word, vec![7; count])),
        );
    }
    cases
}

/// Finding at the bounds of a word, and applying with each of them on either side.
fn boundaries_in_two() -> Vec<Case> {
    let mut cases: Vec<Case> = EXAMPLE_WORDS.map(Case::Find).to_vec();
    for &word in &WORD_BOUNDS {
        cases.push(Case::Find(word));
        cases.extend(WORD_BOUNDS.map(|pattern| Case::Apply(word, pattern)));
    }
    cases
}

/// A word that has this pattern's syndrome: what finding says of it, and the pattern applied to it.
fn in_two(pattern: u32, code: &Code, chance: &mut Chance) -> [Case; 2] {
    let word = pattern ^ any_codeword(chance, code);
    [Case::Find(word), Case::Apply(word, pattern)]
}

/// Two words of any sort, at times above the range.
fn any_pair(code: &Code, chance: &mut Chance) -> Case {
    let words = of_every_sort(chance, code);
    let patterns = of_every_sort(chance, code);
    Case::Apply(chance.pick(&words), chance.pick(&patterns))
}

/// All words of at most four ones, fewest first. Added to codewords they meet every syndrome, since
/// no word lies farther from the code.
pub fn patterns() -> Vec<u32> {
    let mut patterns = vec![0];
    let mut first = 0;
    for _ in 0..4 {
        let end = patterns.len();
        for i in first..end {
            let pattern: u32 = patterns[i];
            // Only places above the highest one, so that each pattern comes once.
            let free = (32 - pattern.leading_zeros()) as usize;
            patterns.extend((free..POSITIONS).map(|place| pattern | 1 << place));
        }
        first = end;
    }
    patterns
}

fn slots(chance: &mut Chance, count: usize) -> Vec<u32> {
    (0..count).map(|_| chance.next() as u32).collect()
}

/// Words of every sort, each corrected and asked for candidates.
fn round(code: &Code, chance: &mut Chance) -> Vec<Case> {
    let mut cases = Vec::new();
    for word in of_every_sort(chance, code) {
        cases.push(Case::Correct(word));
        cases.extend(
            SLOT_COUNTS
                .iter()
                .map(|&count| Case::Candidates(word, slots(chance, count))),
        );
    }
    cases
}
