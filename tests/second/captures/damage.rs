//! Damage to a capture as a bad link or a bad disk does it.

use crate::capture::{starts, HEAD, NEW_MARK, NEW_RECORD, OLD_MARK, OLD_RECORD};
use crate::chance::Chance;
use std::ops::Range;

/// Makes a damaged capture of a capture; the second one lends bytes where some come in.
type Damage = fn(&mut Chance, &[u8], &[u8]) -> Vec<u8>;

const DAMAGES: [Damage; 7] = [
    flipped, marked, inserted, removed, duplicated, truncated, spliced,
];
const MOST_DAMAGES: u64 = 3;

pub fn damaged(chance: &mut Chance, capture: &[u8], other: &[u8]) -> Vec<u8> {
    let mut bytes = capture.to_vec();
    for _ in 0..=chance.below(MOST_DAMAGES) {
        bytes = chance.pick(&DAMAGES)(chance, &bytes, other);
    }
    bytes
}

/// A place up to the end; every second one lies in a record's first bytes, where the mark and the
/// number decide.
fn place(chance: &mut Chance, bytes: &[u8]) -> usize {
    if chance.one_in(2) {
        chance.below(bytes.len() as u64 + 1) as usize
    } else {
        let start = chance.pick(&starts(bytes));
        (start + chance.below(HEAD as u64) as usize).min(bytes.len())
    }
}

/// Some bytes at a place, mostly few, at times more than a record.
fn run(chance: &mut Chance, bytes: &[u8]) -> Range<usize> {
    let start = place(chance, bytes);
    let most = chance.pick(&[1, 4, OLD_RECORD, 2 * NEW_RECORD]) as u64;
    let length = 1 + chance.below(most) as usize;
    start..(start + length).min(bytes.len())
}

fn replaced(bytes: &[u8], taken: Range<usize>, put: &[u8]) -> Vec<u8> {
    [&bytes[..taken.start], put, &bytes[taken.end..]].concat()
}

fn flipped(chance: &mut Chance, bytes: &[u8], _: &[u8]) -> Vec<u8> {
    let taken = run(chance, bytes);
    let turned: Vec<u8> = bytes[taken.clone()]
        .iter()
        .map(|byte| byte ^ 1 << chance.below(8))
        .collect();
    replaced(bytes, taken, &turned)
}

/// A mark at a record's start: every second one turns the record into one of the other kind.
fn marked(chance: &mut Chance, bytes: &[u8], _: &[u8]) -> Vec<u8> {
    let start = chance.pick(&starts(bytes));
    let mark = chance.pick(&[OLD_MARK, NEW_MARK]);
    replaced(bytes, start..(start + mark.len()).min(bytes.len()), &mark)
}

fn inserted(chance: &mut Chance, bytes: &[u8], _: &[u8]) -> Vec<u8> {
    let at = place(chance, bytes);
    let length = 1 + chance.below(NEW_RECORD as u64) as usize;
    replaced(bytes, at..at, &chance.bytes(length))
}

fn removed(chance: &mut Chance, bytes: &[u8], _: &[u8]) -> Vec<u8> {
    replaced(bytes, run(chance, bytes), &[])
}

fn duplicated(chance: &mut Chance, bytes: &[u8], _: &[u8]) -> Vec<u8> {
    let run = run(chance, bytes);
    replaced(bytes, run.end..run.end, &bytes[run])
}

fn truncated(chance: &mut Chance, bytes: &[u8], _: &[u8]) -> Vec<u8> {
    bytes[..place(chance, bytes)].to_vec()
}

fn spliced(chance: &mut Chance, bytes: &[u8], other: &[u8]) -> Vec<u8> {
    [
        &bytes[..place(chance, bytes)],
        &other[place(chance, other)..],
    ]
    .concat()
}
