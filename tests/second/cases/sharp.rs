//! Sharpness: changes of a total one below the reserve keep the word, one of exactly it loses it.

use crate::chance::Chance;
use crate::code::{bit_at, Code, POSITIONS};
use crate::decoders::{Refusal, TwoBest};
use crate::line::Case;
use crate::readings::{KINDS, MOST};

/// An accepted reading with what its changes are measured by.
struct Accepted {
    reading: Vec<i32>,
    best: TwoBest,
    reserve: i64,
}

/// The cases around a number of accepted readings, each checked to keep or to lose its word.
pub fn cases(code: &Code, chance: &mut Chance, many: usize) -> Result<Vec<Case>, String> {
    let mut cases = Vec::new();
    for i in 0..many {
        let accepted = accepted_reading(code, chance, i);
        cases.extend(around(code, chance, &accepted)?.into_iter().map(Case::Soft));
        cases.push(Case::Soft(accepted.reading));
    }
    Ok(cases)
}

/// Tries the kinds of readings in turn until one is accepted.
fn accepted_reading(code: &Code, chance: &mut Chance, start: usize) -> Accepted {
    let mut i = start;
    loop {
        let reading = KINDS[i % KINDS.len()](chance, code);
        let best = code
            .two_best(&reading)
            .expect("a reading of 24 allowed confidences");
        if best.largest > best.second {
            let reserve = (best.largest - best.second) / 2;
            return Accepted {
                reading,
                best,
                reserve,
            };
        }
        i += 1;
    }
}

fn around(code: &Code, chance: &mut Chance, accepted: &Accepted) -> Result<Vec<Vec<i32>>, String> {
    let below = accepted.reserve - 1;
    let scattered = scattered(chance, &accepted.reading, below);
    check(code, accepted, &scattered, below, true)?;
    let aimed_below = aimed(code, chance, accepted, below);
    check(code, accepted, &aimed_below, below, true)?;
    let aimed = aimed(code, chance, accepted, accepted.reserve);
    check(code, accepted, &aimed, accepted.reserve, false)?;
    Ok(vec![scattered, aimed_below, aimed])
}

/// The changed reading must have the total it claims, and keep the word or lose it as wanted.
fn check(
    code: &Code,
    accepted: &Accepted,
    changed: &[i32],
    total: i64,
    wanted_kept: bool,
) -> Result<(), String> {
    let size = |(&before, &after): (&i32, &i32)| (i64::from(after) - i64::from(before)).abs();
    let reached: i64 = accepted.reading.iter().zip(changed).map(size).sum();
    let answer = code.soft(changed);
    let as_wanted = match &answer {
        Ok(answer) => (answer.message as usize == accepted.best.winner) == wanted_kept,
        Err(Refusal::Tied) => !wanted_kept,
        // Any other refusal would say that the change left the range.
        Err(_) => false,
    };
    if reached == total && as_wanted {
        return Ok(());
    }
    let wanted = if wanted_kept { "keep" } else { "lose" };
    Err(format!(
        "sharpness: a change of {total} must {wanted} the word of {:?}, \
         but a change of {reached} to {changed:?} gives {answer:?}",
        accepted.reading
    ))
}

fn room(confidence: i32, upward: bool) -> i64 {
    let confidence = i64::from(confidence);
    if upward {
        MOST - confidence
    } else {
        confidence + MOST
    }
}

/// A random way to go, but the other way where too little room is left to reach the total.
fn ways(chance: &mut Chance, reading: &[i32], total: i64) -> Vec<bool> {
    let share = total / POSITIONS as i64 + 1;
    let way = |&confidence: &i32| {
        let upward = chance.one_in(2);
        if room(confidence, upward) < share {
            !upward
        } else {
            upward
        }
    };
    reading.iter().map(way).collect()
}

/// Changes at random places, ways and sizes, of the given total.
fn scattered(chance: &mut Chance, reading: &[i32], total: i64) -> Vec<i32> {
    let mut changed = reading.to_vec();
    let upward = ways(chance, reading, total);
    let order = chance.order(POSITIONS);
    let mut left = total;
    // Random sizes first; the second time over, whatever is left goes where room is.
    for &at_random in &[true, false] {
        for &place in &order {
            let most = left.min(room(changed[place], upward[place]));
            let size = if at_random {
                chance.between(0, most)
            } else {
                most
            };
            let signed = if upward[place] { size } else { -size };
            changed[place] = (i64::from(changed[place]) + signed) as i32;
            left -= size;
        }
    }
    changed
}

/// Shrinks toward zero what favours the winner where it differs from the runner-up. What favours it
/// there, less what speaks against it, is exactly the reserve, so that much can always be shrunk.
fn aimed(code: &Code, chance: &mut Chance, accepted: &Accepted, total: i64) -> Vec<i32> {
    let winner = code.codewords[accepted.best.winner];
    let runner_up = code.codewords[accepted.best.runner_up];
    let mut changed = accepted.reading.clone();
    let mut left = total;
    for place in chance.order(POSITIONS) {
        let sign = if bit_at(winner, place) { -1 } else { 1 };
        let favour = sign * i64::from(changed[place]);
        if bit_at(winner ^ runner_up, place) && favour > 0 {
            let size = left.min(favour);
            changed[place] = (sign * (favour - size)) as i32;
            left -= size;
        }
    }
    changed
}
