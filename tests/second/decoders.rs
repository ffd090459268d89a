//! Every call (11.3), decided by trying all codewords: the complete answer, or the refusal.

use crate::code::{
    bit_at, distance, interpretations, syndrome_of, Code, COLUMNS, MESSAGES, POSITIONS, WORDS,
};

/// The refusals by their numbers (11.1).
#[derive(Clone, Copy, Debug, PartialEq)]
pub enum Refusal {
    Length = 1,
    ForbiddenConfidence = 2,
    MessageAbove = 3,
    WordAbove = 4,
    NotACodeword = 5,
    Tied = 6,
    DistanceFour = 7,
    DistanceOtherThanFour = 8,
    NoMark = 9,
    CutShort = 10,
    ClassAbove = 11,
    CountFull = 12,
    Unsettled = 14,
    NoColumn = 18,
}

pub const FORBIDDEN: i32 = i32::MIN;
pub const CLASSES: u32 = 128;
const CLASS_SIZE: usize = 32;
const WORD_BYTES: usize = 3;
const SLOTS: usize = 6;
/// Of more zeros no filling is tried (9.8).
const MOST_ZEROS: usize = 4;

/// A reading that passed the refusals 1 and 2; 64 bits, so that no sum or negation can overflow.
type Reading = [i64; POSITIONS];

#[derive(Debug, PartialEq)]
pub struct SoftAnswer {
    pub message: u32,
    pub codeword: u32,
    pub correlation: i64,
    pub reserve: i64,
}

/// A largest correlation and the largest that any other codeword has (7.2), each with its message.
pub struct TwoBest {
    pub winner: usize,
    pub largest: i64,
    pub runner_up: usize,
    pub second: i64,
}

fn word_in_range(word: u32) -> Result<u32, Refusal> {
    if word < WORDS {
        Ok(word)
    } else {
        Err(Refusal::WordAbove)
    }
}

pub fn length_is(length: usize, wanted: usize) -> Result<(), Refusal> {
    if length == wanted {
        Ok(())
    } else {
        Err(Refusal::Length)
    }
}

fn checked(confidences: &[i32]) -> Result<Reading, Refusal> {
    length_is(confidences.len(), POSITIONS)?;
    if confidences.contains(&FORBIDDEN) {
        return Err(Refusal::ForbiddenConfidence);
    }
    let mut reading = [0; POSITIONS];
    for (wide, &confidence) in reading.iter_mut().zip(confidences) {
        *wide = i64::from(confidence);
    }
    Ok(reading)
}

fn correlation(codeword: u32, reading: &Reading) -> i64 {
    let signed = |(place, &confidence): (usize, &i64)| {
        if bit_at(codeword, place) {
            -confidence
        } else {
            confidence
        }
    };
    reading.iter().enumerate().map(signed).sum()
}

/// The place of the largest number, leaving one place out of the search.
fn place_of_largest(numbers: &[i64], left_out: Option<usize>) -> usize {
    (0..numbers.len())
        .filter(|&i| Some(i) != left_out)
        .max_by_key(|&i| numbers[i])
        .expect("a number to choose")
}

/// Every word that has bit 1 where the confidence is negative, bit 0 where it is positive, and either
/// where it is zero (9.2). Without zeros that is one, the word of signs.
pub fn fillings(reading: &Reading) -> Vec<u32> {
    let with_bits = |words: Vec<u32>, confidence: &i64| {
        let bits: &[u32] = match confidence.signum() {
            1 => &[0],
            -1 => &[1],
            _ => &[0, 1],
        };
        let longer = |word: u32| bits.iter().map(move |bit| word << 1 | bit);
        words.into_iter().flat_map(longer).collect()
    };
    reading.iter().fold(vec![0], with_bits)
}

fn cost_of_differing(word: u32, candidate: u32, reading: &Reading) -> i64 {
    (0..POSITIONS)
        .filter(|&place| bit_at(word ^ candidate, place))
        .map(|place| reading[place].abs())
        .sum()
}

pub fn syndrome(word: u32) -> Result<u32, Refusal> {
    word_in_range(word).map(syndrome_of)
}

pub fn distance_between(word: u32, other: u32) -> Result<u32, Refusal> {
    Ok(distance(word_in_range(word)?, word_in_range(other)?))
}

pub fn apply(word: u32, pattern: u32) -> Result<u32, Refusal> {
    Ok(word_in_range(word)? ^ word_in_range(pattern)?)
}

/// The correlations of a column's two interpretations with its four confidences (8.3): that of the
/// one with top bit 0, which is the column's figure, and that of the other.
pub fn for_interpretations(
    class: u32,
    column: u32,
    confidences: &[i32],
) -> Result<[i64; 2], Refusal> {
    let reading = checked(confidences)?;
    if class >= CLASSES {
        return Err(Refusal::ClassAbove);
    }
    if column < 1 || column > COLUMNS as u32 {
        return Err(Refusal::NoColumn);
    }
    let first = 4 * (column as usize - 1);
    let sum = |interpretation: u32| {
        let signed = |row: usize| {
            if interpretation >> (3 - row) & 1 == 1 {
                -reading[first + row]
            } else {
                reading[first + row]
            }
        };
        (0..4).map(signed).sum()
    };
    Ok(interpretations(class, column).map(sum))
}

pub fn column_figure(class: u32, column: u32, confidences: &[i32]) -> Result<i64, Refusal> {
    for_interpretations(class, column, confidences).map(|[top_zero, _]| top_zero)
}

/// The reading with a number in a receiver's buffer, where the buffer is whole and has one (17.1).
fn reading_of(buffer: &[i32], number: u64) -> Option<&[i32]> {
    if buffer.len() % POSITIONS != 0 {
        return None;
    }
    buffer.chunks(POSITIONS).nth(usize::try_from(number).ok()?)
}

impl Code {
    pub fn encode(&self, message: u32) -> Result<u32, Refusal> {
        if message < MESSAGES {
            Ok(self.codewords[message as usize])
        } else {
            Err(Refusal::MessageAbove)
        }
    }

    pub fn read(&self, word: u32) -> Result<u32, Refusal> {
        word_in_range(word)?;
        let place = self.codewords.iter().position(|&codeword| codeword == word);
        place
            .map(|message| message as u32)
            .ok_or(Refusal::NotACodeword)
    }

    pub fn write_bytes(&self, word: u32, bytes: &mut [u8]) -> Result<(), Refusal> {
        length_is(bytes.len(), WORD_BYTES)?;
        self.read(word)?;
        bytes.copy_from_slice(&word.to_be_bytes()[1..]);
        Ok(())
    }

    pub fn read_bytes(&self, bytes: &[u8]) -> Result<u32, Refusal> {
        length_is(bytes.len(), WORD_BYTES)?;
        let word = bytes
            .iter()
            .fold(0, |word, &byte| word << 8 | u32::from(byte));
        self.read(word)?;
        Ok(word)
    }

    /// How far a word is from the code (5.4), and every codeword at that distance, ascending.
    pub fn nearest(&self, word: u32) -> (u32, Vec<u32>) {
        let least = self
            .codewords
            .iter()
            .map(|&codeword| distance(word, codeword))
            .min()
            .expect("a codeword");
        let mut found: Vec<u32> = self
            .codewords
            .iter()
            .copied()
            .filter(|&codeword| distance(word, codeword) == least)
            .collect();
        found.sort_unstable();
        (least, found)
    }

    pub fn correct(&self, word: u32) -> Result<(u32, u32), Refusal> {
        word_in_range(word)?;
        let (distance, found) = self.nearest(word);
        if distance == 4 {
            Err(Refusal::DistanceFour)
        } else {
            Ok((found[0], distance))
        }
    }

    /// The error pattern of a word (5.2) and its ones. The words of one syndrome are a word and what
    /// it makes with each codeword (4.3), and of these the one with the fewest ones is sought, the
    /// least where several have as many.
    pub fn find(&self, word: u32) -> Result<(u32, u32), Refusal> {
        word_in_range(word)?;
        let pattern = self
            .codewords
            .iter()
            .map(|&codeword| word ^ codeword)
            .min_by_key(|&error| (error.count_ones(), error))
            .expect("a codeword");
        Ok((pattern, pattern.count_ones()))
    }

    pub fn candidates(&self, word: u32, slots: &mut [u32]) -> Result<(), Refusal> {
        length_is(slots.len(), SLOTS)?;
        word_in_range(word)?;
        let (distance, found) = self.nearest(word);
        if distance != 4 {
            return Err(Refusal::DistanceOtherThanFour);
        }
        slots.copy_from_slice(&found);
        Ok(())
    }

    /// The largest correlation of the class by its definition; the way through the columns is left
    /// to the proved code.
    pub fn class_figure(&self, class: u32, confidences: &[i32]) -> Result<i64, Refusal> {
        let reading = checked(confidences)?;
        if class >= CLASSES {
            return Err(Refusal::ClassAbove);
        }
        let first = class as usize * CLASS_SIZE;
        let members = &self.codewords[first..first + CLASS_SIZE];
        Ok(members
            .iter()
            .map(|&codeword| correlation(codeword, &reading))
            .max()
            .expect("a codeword in the class"))
    }

    pub fn two_best(&self, confidences: &[i32]) -> Result<TwoBest, Refusal> {
        let reading = checked(confidences)?;
        let all: Vec<i64> = self
            .codewords
            .iter()
            .map(|&codeword| correlation(codeword, &reading))
            .collect();
        let winner = place_of_largest(&all, None);
        let runner_up = place_of_largest(&all, Some(winner));
        Ok(TwoBest {
            winner,
            largest: all[winner],
            runner_up,
            second: all[runner_up],
        })
    }

    pub fn soft(&self, confidences: &[i32]) -> Result<SoftAnswer, Refusal> {
        let best = self.two_best(confidences)?;
        if best.largest == best.second {
            return Err(Refusal::Tied);
        }
        Ok(SoftAnswer {
            message: best.winner as u32,
            codeword: self.codewords[best.winner],
            correlation: best.largest,
            reserve: (best.largest - best.second) / 2,
        })
    }

    /// The choice between two receivers, and the part that is handed back (17.3 to 17.5).
    pub fn better<'a>(&self, number: u64, first: &'a [i32], second: &'a [i32]) -> (u8, &'a [i32]) {
        let neither = (0, &first[..0]);
        let (Some(one), Some(other)) = (reading_of(first, number), reading_of(second, number))
        else {
            return neither;
        };
        let reserve = |reading| self.soft(reading).ok().map(|answer| answer.reserve);
        match (reserve(one), reserve(other)) {
            (None, None) => neither,
            (Some(_), None) => (1, one),
            (None, Some(_)) => (2, other),
            (Some(of_one), Some(of_other)) if of_one < of_other => (2, other),
            (Some(_), Some(_)) => (1, one),
        }
    }

    /// The codeword that a word is decided for: of the nearest ones that with the smallest cost (9.3,
    /// 9.4); none where two have it, which is a tied word (9.5).
    pub fn decided(&self, word: u32, reading: &Reading) -> Option<u32> {
        // At distance 0 to 3 the list has one codeword, so the smallest cost is that codeword's.
        let (_, found) = self.nearest(word);
        let cost = |&candidate: &u32| cost_of_differing(word, candidate, reading);
        let smallest = found.iter().map(cost).min().expect("a nearest codeword");
        let cheapest: Vec<u32> = found
            .into_iter()
            .filter(|candidate| cost(candidate) == smallest)
            .collect();
        match cheapest[..] {
            [codeword] => Some(codeword),
            _ => None,
        }
    }

    /// The codeword that every filling is decided for; none where one is tied or two differ.
    fn settled(&self, reading: &Reading) -> Option<u32> {
        let decided: Vec<Option<u32>> = fillings(reading)
            .into_iter()
            .map(|word| self.decided(word, reading))
            .collect();
        let first = decided[0]?;
        decided
            .iter()
            .all(|&codeword| codeword == Some(first))
            .then_some(first)
    }

    pub fn quick(&self, confidences: &[i32]) -> Result<u32, Refusal> {
        let reading = checked(confidences)?;
        let zeros = reading.iter().filter(|&&confidence| confidence == 0);
        match zeros.count() {
            0 => self.settled(&reading).ok_or(Refusal::Tied),
            1..=MOST_ZEROS => self.settled(&reading).ok_or(Refusal::Unsettled),
            _ => Err(Refusal::Unsettled),
        }
    }
}
