//! Tests of the quick decoder over readings with zeros.

use super::{answer, code, runs};
use crate::cases::Kind;
use crate::chance::Chance;
use crate::code::{Code, POSITIONS};
use crate::decoders::{fillings, FORBIDDEN};
use crate::line::Case;
use crate::readings::{sizes, speaking_for, MOST};
use crate::words::any_codeword;
use std::collections::HashMap;

#[test]
fn fillings_have_either_bit_at_zeros() {
    let mut reading = [5; POSITIONS];
    assert_eq!(fillings(&reading), [0]);
    (reading[0], reading[1], reading[23]) = (0, -7, 0);
    assert_eq!(fillings(&reading), [0x400000, 0x400001, 0xC00000, 0xC00001]);
}

/// Rule 9.8, by hand. The candidates of 0xF00000 each turn one column over; 0x700000 and 0xF80000 are
/// corrected to 0 and to 0xFF0000.
#[test]
fn worked_zeros() {
    let cases = [
        (runs(&[(1, 0), (23, 1)]), "answered 0"),
        (runs(&[(4, 0), (20, 1)]), "answered 0"),
        (runs(&[(20, -1), (4, 0)]), "answered 16777215"),
        (runs(&[(5, 0), (19, 1)]), "refused 14"),
        (runs(&[(19, -1), (5, 0)]), "refused 14"),
        // In 0xF00000 column 1 costs 3, and each other column 4.
        (runs(&[(1, 0), (3, -1), (20, 1)]), "answered 0"),
        // Column 1 costs 11, 12 and 13 there, and column 6 costs 12.
        (
            runs(&[(1, 0), (1, -3), (2, -4), (16, 4), (4, 3)]),
            "answered 0",
        ),
        (runs(&[(1, 0), (3, -4), (16, 4), (4, 3)]), "refused 14"),
        (
            runs(&[(1, 0), (1, -5), (2, -4), (16, 4), (4, 3)]),
            "refused 14",
        ),
        // The zero is in column 2, which costs 3 there, and 12 as column 1 does.
        (runs(&[(4, -1), (1, 0), (19, 1)]), "answered 16711680"),
        (runs(&[(4, -3), (1, 0), (19, 4)]), "refused 14"),
        // In 0x780000 the candidate 0 costs 4, and 0xFF0000 costs 3 beside the zero.
        (runs(&[(1, 0), (4, -1), (19, 1)]), "answered 16711680"),
    ];
    for (reading, quick) in cases {
        assert_eq!(answer(&format!("quick{reading}")), quick, "{reading}");
    }
}

/// Two codewords differ at eight places, so that a filling with three wrong bits is nearer to its own
/// than to any other; and four zeros cost nothing.
#[test]
fn three_zeros_and_errors_are_borne() {
    let code = code();
    let chance = &mut Chance::from_seed(10);
    for (zeros, errors) in [(1, 0), (1, 1), (1, 2), (2, 0), (2, 1), (3, 0), (4, 0)] {
        for _ in 0..100 {
            let codeword = any_codeword(chance, &code);
            let mut sizes = sizes(chance, 1, MOST);
            let order = chance.order(POSITIONS);
            order[..zeros].iter().for_each(|&place| sizes[place] = 0);
            order[zeros..][..errors]
                .iter()
                .for_each(|&place| sizes[place] *= -1);
            assert_eq!(code.quick(&speaking_for(codeword, &sizes)), Ok(codeword));
        }
    }
}

/// What each filling is decided for; nothing for a reading that has other than one to four zeros, or
/// is refused with 1 or 2.
fn decided(code: &Code, confidences: &[i32]) -> Vec<Option<u32>> {
    let zeros = confidences.iter().filter(|&&confidence| confidence == 0);
    let filled = (1..=4).contains(&zeros.count()) && !confidences.contains(&FORBIDDEN);
    let wide: Vec<i64> = confidences.iter().copied().map(i64::from).collect();
    match wide.try_into() {
        Ok(reading) if filled => fillings(&reading)
            .into_iter()
            .map(|word| code.decided(word, &reading))
            .collect(),
        _ => Vec::new(),
    }
}

/// How many fillings are not decided for the codeword that most are, and how many are tied.
fn against(decided: &[Option<u32>]) -> (usize, usize) {
    let alike = |codeword| decided.iter().filter(|&&other| other == codeword).count();
    let codewords = decided.iter().filter(|codeword| codeword.is_some());
    let most = codewords.map(|&codeword| alike(codeword)).max();
    (decided.len() - most.unwrap_or(0), alike(None))
}

/// The fixed cases have readings that no filling speaks against, and readings that a single one does,
/// decided for another codeword or tied. With four zeros that one is never tied: to be wrong at these
/// alone costs nothing, and with an error beside them it is nearer to another codeword.
#[test]
fn fixed_zeros_come_out_in_every_way() {
    let code = code();
    let mut often: HashMap<(usize, (usize, usize)), usize> = HashMap::new();
    for case in Kind::Quick.fixed(&code).expect("fixed cases") {
        let Case::Quick(confidences) = case else {
            panic!("no case of the quick decoder");
        };
        let decided = decided(&code, &confidences);
        *often.entry((decided.len(), against(&decided))).or_default() += 1;
    }
    for many in [2, 4, 8, 16] {
        assert!(often[&(many, (0, 0))] > 20);
        assert!(often[&(many, (1, 0))] > 10);
        assert_eq!(often.contains_key(&(many, (1, 1))), many != 16);
    }
}
