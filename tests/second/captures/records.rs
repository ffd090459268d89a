//! The records of the captures that are tried: readings of all sorts, in old records and in new ones
//! with numbers of all sorts.

use crate::capture::{new_record, old_record, NEW_MARK, OLD_MARK};
use crate::chance::Chance;
use crate::code::{Code, POSITIONS};
use crate::decoders::FORBIDDEN;
use crate::numbers::{any_number, Numbers};
use crate::readings::{overflowing, KINDS, MOST};

/// Steps that tell a repeat, losses or a late record (12.6), most of them beside another outcome's.
const STEPS: [i64; 12] = [0, 0, 2, 2, 3, 300, 32_767, 32_768, 32_769, 50_000, -2, -1];

/// Each new record after the first tells something that a first one doesn't, so that a previous
/// number shows that gets lost: one lost, a repeat, one lost, late, five lost. Two old ones stand
/// between.
pub const UNEVEN: [Option<u16>; 8] = [
    Some(65_533),
    None,
    Some(65_535),
    Some(65_535),
    Some(1),
    Some(0),
    None,
    Some(7),
];

/// So many old and so many new records, in random order.
pub fn records(code: &Code, chance: &mut Chance, old: usize, new: usize) -> Vec<u8> {
    let any = any_number(chance);
    let mut link = Numbers {
        latest: chance.pick(&[65_532, 65_535, any]),
        one_in: 3,
        steps: &STEPS,
    };
    let order = chance.order(old + new);
    let number = |place| (place < new).then(|| link.next(chance));
    let numbers: Vec<Option<u16>> = order.into_iter().map(number).collect();
    records_of_numbers(code, chance, &numbers)
}

/// A new record for each number, an old one where there is none.
pub fn records_of_numbers(code: &Code, chance: &mut Chance, numbers: &[Option<u16>]) -> Vec<u8> {
    let record = |&number: &Option<u16>| {
        let reading = reading(code, chance);
        match number {
            Some(number) => new_record(number, &reading),
            None => old_record(&reading),
        }
    };
    numbers.iter().flat_map(record).collect()
}

/// Mostly the kinds of readings that the decoders are tried on; now and then one of extremes, one
/// with the refused confidence, or one of marks.
fn reading(code: &Code, chance: &mut Chance) -> Vec<i32> {
    let reading = chance.pick(&KINDS)(chance, code);
    match chance.below(12) {
        0 => extremes(chance),
        1 => overflowing(chance, reading),
        2 => marks(chance),
        _ => reading,
    }
}

fn extremes(chance: &mut Chance) -> Vec<i32> {
    let ends = [FORBIDDEN, -MOST as i32, -1, 0, 1, MOST as i32];
    let most = chance.between(1, ends.len() as i64) as usize;
    (0..POSITIONS)
        .map(|_| chance.pick(&ends[ends.len() - most..]))
        .collect()
}

/// Where a run has lost its way among these, it finds marks and goes on.
fn marks(chance: &mut Chance) -> Vec<i32> {
    let mut mark = || i32::from(u16::from_be_bytes(chance.pick(&[OLD_MARK, NEW_MARK])));
    (0..POSITIONS).map(|_| mark() << 16 | mark()).collect()
}
