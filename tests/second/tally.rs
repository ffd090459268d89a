//! The tally of readings and its table of counts (18.1): what counting one reading moves (18.2), and
//! what it refuses (18.3).

use crate::code::{Code, MESSAGES, POSITIONS};
use crate::decoders::{length_is, Refusal};
use std::collections::BTreeMap;

pub const COUNTS: usize = MESSAGES as usize;
pub const MOST_COUNT: u32 = 4_294_967_295;
pub const MOST_TOTAL: u64 = 9_223_372_036_854_775_807;

#[derive(Clone, Debug, Default, PartialEq)]
pub struct Tally {
    pub read: u32,
    pub accepted: u32,
    pub refused_2: u32,
    pub refused_6: u32,
    pub smallest: Option<u64>,
    pub total: u64,
}

/// A table of counts: how long it is, and those of its counts that aren't 0 by their places.
#[derive(Clone, Debug, PartialEq)]
pub struct Table {
    pub length: usize,
    pub counts: BTreeMap<usize, u32>,
}

impl Table {
    pub fn empty() -> Table {
        Table::of(&[0; COUNTS])
    }

    pub fn of(counts: &[u32]) -> Table {
        let pairs = counts.iter().copied().enumerate();
        Table {
            length: counts.len(),
            counts: pairs.filter(|&(_, count)| count != 0).collect(),
        }
    }

    pub fn whole(&self) -> Vec<u32> {
        let mut counts = vec![0; self.length];
        self.counts
            .iter()
            .for_each(|(&i, &count)| counts[i] = count);
        counts
    }
}

fn gone_up(count: u32) -> Result<u32, Refusal> {
    count.checked_add(1).ok_or(Refusal::CountFull)
}

fn with_reserve(total: u64, reserve: u64) -> Result<u64, Refusal> {
    total
        .checked_add(reserve)
        .filter(|&total| total <= MOST_TOTAL)
        .ok_or(Refusal::CountFull)
}

impl Code {
    /// What moves is worked out apart, so that a refusal finds tally and table as they were.
    pub fn count(
        &self,
        tally: &mut Tally,
        counts: &mut [u32],
        reading: &[i32],
    ) -> Result<(), Refusal> {
        length_is(counts.len(), COUNTS)?;
        length_is(reading.len(), POSITIONS)?;
        let mut moved = tally.clone();
        moved.read = gone_up(tally.read)?;
        match self.soft(reading) {
            Ok(answer) => {
                let reserve = answer.reserve as u64;
                let smallest = tally.smallest.unwrap_or(reserve).min(reserve);
                moved.accepted = gone_up(tally.accepted)?;
                moved.smallest = Some(smallest);
                moved.total = with_reserve(tally.total, reserve)?;
                let count = &mut counts[answer.message as usize];
                *count = gone_up(*count)?;
            }
            Err(Refusal::ForbiddenConfidence) => moved.refused_2 = gone_up(tally.refused_2)?,
            Err(Refusal::Tied) => moved.refused_6 = gone_up(tally.refused_6)?,
            Err(refusal) => return Err(refusal),
        }
        *tally = moved;
        Ok(())
    }
}
