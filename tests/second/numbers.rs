//! Numbers of new records as a link may give them: mostly counting on, at times lost, repeated or
//! late (12.6).

use crate::chance::Chance;

const NUMBERS: i64 = 65_536;

pub struct Numbers {
    /// What the next number counts on from.
    pub latest: u16,
    /// One number in so many doesn't count on by 1.
    pub one_in: u64,
    /// The steps to such numbers. One below zero leads to a late one, which the next number passes by.
    pub steps: &'static [i64],
}

impl Numbers {
    pub fn next(&mut self, chance: &mut Chance) -> u16 {
        let step = if chance.one_in(self.one_in) {
            chance.pick(self.steps)
        } else {
            1
        };
        let number = after(self.latest, step);
        if step > 0 {
            self.latest = number;
        }
        number
    }
}

/// The number that a step leads to.
pub fn after(number: u16, step: i64) -> u16 {
    (i64::from(number) + step).rem_euclid(NUMBERS) as u16
}

pub fn any_number(chance: &mut Chance) -> u16 {
    chance.below(NUMBERS as u64) as u16
}
