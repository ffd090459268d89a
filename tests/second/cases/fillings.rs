//! The cases of the quick decoder whose readings have zeros, at chosen places and at random ones.

use crate::chance::Chance;
use crate::code::{bit_at, Code, COLUMNS, POSITIONS};
use crate::line::Case;
use crate::readings::{halfway, speaking_for, KINDS_WITH_ZEROS};

/// A codeword that has both bits in every column.
const OF_BOTH_BITS: u32 = 0x777778;

/// Two codewords each that differ at eight places: in two whole columns, or in parts of four.
const PAIRS: [[u32; 2]; 4] = [
    [0x000000, 0xF0000F],
    [0xFFFFFF, 0xFFCCCC],
    [0x777778, 0x27724E],
    [0xEEEE87, 0xEEEE78],
];

pub fn cases(code: &Code, chance: &mut Chance, many: usize) -> Vec<Case> {
    let mut readings = clear();
    readings.extend(PAIRS.into_iter().flat_map(between));
    readings.extend((0..many).map(|i| KINDS_WITH_ZEROS[i % KINDS_WITH_ZEROS.len()](chance, code)));
    readings.into_iter().map(Case::Quick).collect()
}

/// Each place alone, neighbours, the same place from either end, whole columns, a column and the
/// place after it, places in different columns, and three or more of the first places or the last.
fn chosen_places() -> Vec<Vec<usize>> {
    let mut chosen: Vec<Vec<usize>> = (0..POSITIONS).map(|place| vec![place]).collect();
    chosen.extend((1..POSITIONS).map(|place| vec![place - 1, place]));
    chosen.extend((0..POSITIONS / 2).map(|place| vec![place, POSITIONS - 1 - place]));
    for first in (0..COLUMNS).map(|column| 4 * column) {
        chosen.push((first..first + 4).collect());
        chosen.push((first..first + 5).map(|place| place % POSITIONS).collect());
    }
    chosen.extend([vec![1, 6, 11, 16], vec![0, 5, 10, 15, 20]]);
    for many in 3..POSITIONS {
        chosen.push((0..many).collect());
        chosen.push((POSITIONS - many..POSITIONS).collect());
    }
    chosen
}

/// Without an error: up to four zeros are answered.
fn clear() -> Vec<Vec<i32>> {
    let mut readings = Vec::new();
    for places in chosen_places() {
        let mut sizes = vec![1; POSITIONS];
        places.iter().for_each(|&place| sizes[place] = 0);
        readings.extend([0, OF_BOTH_BITS].map(|codeword| speaking_for(codeword, &sizes)));
    }
    readings
}

/// Zeros at each choice of four places where the codewords differ, and errors at the rest of them,
/// which cost one less than the other four places, as much, or one more.
fn between([codeword, other]: [u32; 2]) -> Vec<Vec<i32>> {
    let differ = |&place: &usize| bit_at(codeword ^ other, place);
    let places: Vec<usize> = (0..POSITIONS).filter(differ).collect();
    let (half, others) = places.split_at(4);
    let mut sizes = vec![4; POSITIONS];
    others.iter().for_each(|&place| sizes[place] = 3);
    let mut readings = Vec::new();
    for choice in 1..16 {
        let chosen = |bit| (0..4).filter(move |i| choice >> i & 1 == bit);
        let zeros: Vec<usize> = chosen(1).map(|i| half[i]).collect();
        let errors: Vec<usize> = chosen(0).map(|i| half[i]).collect();
        let costs: &[i64] = if errors.is_empty() { &[0] } else { &[-1, 0, 1] };
        readings.extend(costs.iter().map(|&more| {
            let sizes = halfway(sizes.clone(), &zeros, &errors, others, more);
            speaking_for(codeword, &sizes)
        }));
    }
    readings
}
