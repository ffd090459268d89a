//! The cases of counting a reading: every count and the total at and beside its end, alone and several
//! at once, every way for a reserve to meet the smallest, and the lengths that are refused.

use super::{of_length, ones, refusals, with_confidence, zeros};
use crate::chance::Chance;
use crate::code::{Code, MESSAGES, POSITIONS};
use crate::decoders::{Refusal, FORBIDDEN};
use crate::line::Case;
use crate::readings::{overflowing, speaking_for, KINDS, MOST};
use crate::tally::{Table, Tally, COUNTS, MOST_COUNT, MOST_TOTAL};

/// How many readings of each kind are counted, and how many of each outcome are taken to every end.
struct Amounts {
    of_a_kind: usize,
    rounds: usize,
}

const SEEDED: Amounts = Amounts {
    of_a_kind: 100,
    rounds: 40,
};

const FIXED: Amounts = Amounts {
    of_a_kind: 4,
    rounds: 4,
};

/// The largest reserve (7.3).
const MOST_RESERVE: i64 = 8 * MOST;

/// What a table's length may be in place of 4,096, and a reading's in place of 24.
const TABLE_LENGTHS: [usize; 6] = [0, 1, POSITIONS, COUNTS - 1, COUNTS + 1, 2 * COUNTS];
const READING_LENGTHS: [usize; 4] = [0, POSITIONS - 1, POSITIONS + 1, 2 * POSITIONS];

/// How many cases have several numbers at their ends at once, for each reading.
const SEVERAL: usize = 8;

pub fn seeded(code: &Code, chance: &mut Chance) -> Vec<Case> {
    let mut cases = gathered(code, chance, SEEDED);
    cases.extend(lengths(code, chance));
    cases
}

/// The worked ones stand first.
pub fn fixed(code: &Code, chance: &mut Chance) -> Vec<Case> {
    let mut cases = gathered(code, chance, FIXED);
    cases.extend(refusals::cases(refusals::tally()));
    cases
}

fn gathered(code: &Code, chance: &mut Chance, many: Amounts) -> Vec<Case> {
    let mut cases = worked();
    cases.extend(of_every_kind(code, chance, many.of_a_kind));
    cases.extend(of_messages(code, chance));
    for i in 0..many.rounds {
        for reading in of_every_outcome(code, chance, i) {
            cases.extend(counts_at_their_ends(chance, &reading));
            cases.extend(totals(chance, &reading));
            cases.extend(smallests(chance, &reading));
            cases.extend((0..SEVERAL).map(|_| several_at_their_ends(chance, &reading)));
        }
    }
    cases
}

/// A reading; with its message and its reserve where it is accepted, else with any.
struct Counted {
    reading: Vec<i32>,
    message: usize,
    reserve: u64,
}

/// A tally and its table, before a reading is counted in them.
struct Before {
    tally: Tally,
    table: Table,
}

impl Before {
    fn empty() -> Before {
        Before {
            tally: Tally::default(),
            table: Table::empty(),
        }
    }

    fn case(self, reading: &[i32]) -> Case {
        Case::Count(self.tally, self.table, reading.to_vec())
    }

    fn set_count(&mut self, place: usize, count: u32) {
        self.table.counts.insert(place, count);
        self.table.counts.retain(|_, &mut count| count != 0);
    }

    /// One of the counts: of the tally, of the reading's message, or of the message next to that, which
    /// counts something else.
    fn set(&mut self, which: usize, reading: &Counted, count: u32) {
        match which {
            0 => self.tally.read = count,
            1 => self.tally.accepted = count,
            2 => self.tally.refused_2 = count,
            3 => self.tally.refused_6 = count,
            4 => self.set_count(reading.message, count),
            _ => self.set_count(reading.message ^ 1, count),
        }
    }
}

/// What `Before::set` can set.
const SETTABLE: usize = 6;

/// The readings of the worked capture (18.7), the second one counted in what the first one leaves; and
/// one with the forbidden confidence.
fn worked() -> Vec<Case> {
    let mut after_ones = Before::empty();
    after_ones.tally = Tally {
        read: 1,
        accepted: 1,
        smallest: Some(8),
        total: 8,
        ..Tally::default()
    };
    after_ones.set_count(0, 1);
    vec![
        Before::empty().case(&ones()),
        after_ones.case(&zeros()),
        Before::empty().case(&with_confidence(&ones(), 0, FORBIDDEN)),
    ]
}

/// Every second one in an empty tally.
fn of_every_kind(code: &Code, chance: &mut Chance, many: usize) -> Vec<Case> {
    let mut cases = Vec::new();
    for i in 0..many {
        for kind in KINDS {
            let reading = kind(chance, code);
            let message = chance.below(u64::from(MESSAGES)) as usize;
            let before = match i % 2 {
                0 => Before::empty(),
                _ => amid(chance, message),
            };
            cases.push(before.case(&reading));
        }
    }
    cases
}

/// Clean signals of the first message and the last, and of each that is a single bit: a count may go
/// to no other place.
fn of_messages(code: &Code, chance: &mut Chance) -> Vec<Case> {
    let bits = (0..12).map(|bit| 1 << bit);
    let messages = bits.chain([0, COUNTS - 1]);
    let mut case = |message: usize| {
        let size = chance.between(1, MOST);
        let reading = speaking_for(code.codewords[message], &[size; POSITIONS]);
        amid(chance, message).case(&reading)
    };
    messages.map(&mut case).collect()
}

/// Counts and a total that may go up, and counts in the table for a message, for the one next to it,
/// for one that differs from it by a bit and for any.
fn amid(chance: &mut Chance, message: usize) -> Before {
    let mut before = Before::empty();
    before.tally = Tally {
        read: count_below_its_end(chance),
        accepted: count_below_its_end(chance),
        refused_2: count_below_its_end(chance),
        refused_6: count_below_its_end(chance),
        smallest: any_smallest(chance),
        total: chance.below(MOST_TOTAL - MOST_RESERVE as u64),
    };
    let any = chance.below(COUNTS as u64) as usize;
    let by_a_bit = message ^ 1 << chance.below(12);
    for place in [any, by_a_bit, message ^ 1, message] {
        before.set_count(place, count_below_its_end(chance));
    }
    before
}

/// Small ones come up as often as any.
fn count_below_its_end(chance: &mut Chance) -> u32 {
    let bound = chance.pick(&[3, 70_000, MOST_COUNT]);
    chance.below(u64::from(bound)) as u32
}

fn any_smallest(chance: &mut Chance) -> Option<u64> {
    let most = chance.pick(&[20, MOST, MOST_RESERVE]);
    Some(chance.between(0, most) as u64).filter(|&smallest| smallest != 0)
}

/// An accepted reading, a tied one and one with the forbidden confidence.
fn of_every_outcome(code: &Code, chance: &mut Chance, i: usize) -> [Counted; 3] {
    let accepted = match i {
        0 => ones(),
        1 => vec![MOST as i32; POSITIONS],
        _ => made(code, chance, i, |answer| answer.is_ok()),
    };
    let tied = match i {
        0 => zeros(),
        _ => made(code, chance, i, |answer| answer == Err(Refusal::Tied)),
    };
    let other = made(code, chance, i, |answer| answer.is_ok());
    let forbidden = overflowing(chance, other);
    [accepted, tied, forbidden].map(|reading| counted(code, chance, reading))
}

/// Tries the kinds of readings in turn until one has the outcome that is wanted.
fn made(
    code: &Code,
    chance: &mut Chance,
    start: usize,
    wanted: impl Fn(Result<u32, Refusal>) -> bool,
) -> Vec<i32> {
    let mut kinds = KINDS.iter().cycle().skip(start % KINDS.len());
    loop {
        let reading = kinds.next().expect("a kind")(chance, code);
        if wanted(code.soft(&reading).map(|answer| answer.message)) {
            return reading;
        }
    }
}

fn counted(code: &Code, chance: &mut Chance, reading: Vec<i32>) -> Counted {
    let any = chance.below(u64::from(MESSAGES)) as u32;
    let (message, reserve) = code
        .soft(&reading)
        .map_or((any, chance.between(1, MOST_RESERVE)), |answer| {
            (answer.message, answer.reserve)
        });
    Counted {
        reading,
        message: message as usize,
        reserve: reserve as u64,
    }
}

fn counts_at_their_ends(chance: &mut Chance, reading: &Counted) -> Vec<Case> {
    let mut cases = Vec::new();
    for which in 0..SETTABLE {
        for count in [0, MOST_COUNT - 1, MOST_COUNT] {
            let mut before = amid(chance, reading.message);
            before.set(which, reading, count);
            cases.push(before.case(&reading.reading));
        }
    }
    cases
}

/// The reserve leads to the end, or 1 past it or short of it; the total is at its end or past it; the
/// reserve leads to the end of 64 bits, or past it and so back to 0.
fn totals_of(reserve: u64) -> [u64; 9] {
    [
        0,
        MOST_TOTAL - reserve - 1,
        MOST_TOTAL - reserve,
        MOST_TOTAL - reserve + 1,
        MOST_TOTAL,
        MOST_TOTAL + 1,
        u64::MAX - reserve,
        u64::MAX - reserve + 1,
        u64::MAX,
    ]
}

fn totals(chance: &mut Chance, reading: &Counted) -> Vec<Case> {
    let case = |total: u64| {
        let mut before = amid(chance, reading.message);
        before.tally.total = total;
        before.case(&reading.reading)
    };
    Vec::from(totals_of(reading.reserve).map(case))
}

/// None, below the reserve, equal to it and above it: by 1, by a multiple of 2^32, and so far that
/// with a sign it would lie below.
fn smallests(chance: &mut Chance, reading: &Counted) -> Vec<Case> {
    let reserve = reading.reserve;
    let smallests = [
        0,
        1,
        reserve - 1,
        reserve,
        reserve + 1,
        reserve % (1 << 32) + (8 << 32),
        reserve + (1 << 63),
        u64::MAX,
    ];
    let case = |smallest: u64| {
        let mut before = amid(chance, reading.message);
        before.tally.smallest = Some(smallest).filter(|&smallest| smallest != 0);
        before.case(&reading.reading)
    };
    Vec::from(smallests.map(case))
}

fn several_at_their_ends(chance: &mut Chance, reading: &Counted) -> Case {
    let mut before = amid(chance, reading.message);
    for which in 0..SETTABLE {
        if chance.one_in(3) {
            let count = chance.pick(&[MOST_COUNT - 1, MOST_COUNT]);
            before.set(which, reading, count);
        }
    }
    if chance.one_in(3) {
        before.tally.total = chance.pick(&totals_of(reading.reserve));
    }
    before.case(&reading.reading)
}

/// Wrong lengths of the table, of the reading and of both: alone, with every count at its end, and
/// with the forbidden confidence (18.3).
fn lengths(code: &Code, chance: &mut Chance) -> Vec<Case> {
    let mut cases = Vec::new();
    for table in TABLE_LENGTHS.into_iter().chain([COUNTS]) {
        for length in READING_LENGTHS.into_iter().chain([POSITIONS]) {
            for reading in of_every_outcome(code, chance, table + length) {
                let resized = of_length(&reading.reading, length);
                let before = amid(chance, reading.message);
                cases.push(of_table_length(before, table).case(&resized));
                let full = full(chance, &reading);
                cases.push(of_table_length(full, table).case(&resized));
            }
        }
    }
    cases
}

fn full(chance: &mut Chance, reading: &Counted) -> Before {
    let mut before = amid(chance, reading.message);
    for which in 0..SETTABLE {
        before.set(which, reading, MOST_COUNT);
    }
    before.tally.total = chance.pick(&[MOST_TOTAL, u64::MAX]);
    before
}

/// The table cut, or continued by zeros up to a last count.
fn of_table_length(mut before: Before, length: usize) -> Before {
    before.table.length = length;
    before.table.counts.retain(|&place, _| place < length);
    if length > COUNTS {
        before.set_count(length - 1, 1);
    }
    before
}
