//! The extended Golay code by rules 1.1 to 5.1: characters, columns, codewords, syndromes.

pub const POSITIONS: usize = 24;
pub const COLUMNS: usize = 6;
pub const MESSAGES: u32 = 4096;
pub const WORDS: u32 = 1 << POSITIONS;

// The characters 0 and 1 are their own numbers; these two are the others.
const W: u32 = 2;
const V: u32 = 3;

/// The codeword of every message; the message is the place in the list.
pub struct Code {
    pub codewords: Vec<u32>,
}

impl Code {
    pub fn by_the_column_rule() -> Code {
        Code {
            codewords: (0..MESSAGES).map(codeword_of).collect(),
        }
    }
}

/// Product of two characters (1.8).
fn times(x: u32, y: u32) -> u32 {
    match (x, y) {
        (0, _) | (_, 0) => 0,
        (1, other) | (other, 1) => other,
        (W, W) => V,
        (V, V) => W,
        _ => 1,
    }
}

pub fn parity(bits: u32) -> u32 {
    bits.count_ones() % 2
}

/// Bit 1 to 4 of a column, the top one first.
fn bit(column: u32, place: u32) -> u32 {
    column >> (4 - place) & 1
}

pub fn top(column: u32) -> u32 {
    bit(column, 1)
}

pub fn projection(column: u32) -> u32 {
    // A bit is the character 0 or 1, so the rows' characters 0, 1, w, v multiply it.
    times(0, bit(column, 1))
        ^ times(1, bit(column, 2))
        ^ times(W, bit(column, 3))
        ^ times(V, bit(column, 4))
}

/// The columns of a word, column 1 first.
pub fn columns(word: u32) -> [u32; COLUMNS] {
    let mut columns = [0; COLUMNS];
    for (i, column) in columns.iter_mut().enumerate() {
        *column = word >> (4 * (COLUMNS - 1 - i)) & 15;
    }
    columns
}

pub fn hexacodeword(a: u32, b: u32, c: u32) -> [u32; COLUMNS] {
    [
        a,
        b,
        c,
        a ^ b ^ c,
        times(a, V) ^ times(b, W) ^ c,
        times(a, W) ^ times(b, V) ^ c,
    ]
}

/// The table of rule 1.10 has one column for every choice, so the search meets exactly one.
fn column_with(wanted_parity: u32, character: u32, top_bit: u32) -> u32 {
    (0..16)
        .find(|&column| {
            parity(column) == wanted_parity
                && projection(column) == character
                && top(column) == top_bit
        })
        .expect("a column for every parity, character and top bit")
}

/// The table of rule 1.10: for each character its two even columns, then its two odd ones; of two,
/// the one with top bit 0 first.
pub const INTERPRETATIONS: [[[u32; 2]; 2]; 4] = [
    [[0b0000, 0b1111], [0b0111, 0b1000]],
    [[0b0011, 0b1100], [0b0100, 0b1011]],
    [[0b0101, 0b1010], [0b0010, 0b1101]],
    [[0b0110, 0b1001], [0b0001, 0b1110]],
];

/// The two interpretations that a class has in a column, 1 to 6: of its parity and of its character
/// there (8.1).
pub fn interpretations(class: u32, column: u32) -> [u32; 2] {
    let characters = hexacodeword(class >> 4 & 3, class >> 2 & 3, class & 3);
    INTERPRETATIONS[characters[column as usize - 1] as usize][(class >> 6 & 1) as usize]
}

/// The top row: the message holds five bits of it (3.2), and the sixth makes its parity p (3.3).
fn top_row(message: u32, p: u32) -> [u32; COLUMNS] {
    let five = message & 31;
    [
        five >> 4 & 1,
        five >> 3 & 1,
        five >> 2 & 1,
        five >> 1 & 1,
        five & 1,
        parity(five) ^ p,
    ]
}

fn codeword_of(message: u32) -> u32 {
    let p = message >> 11 & 1;
    let characters = hexacodeword(message >> 9 & 3, message >> 7 & 3, message >> 5 & 3);
    let tops = top_row(message, p);
    (0..COLUMNS).fold(0, |word, i| {
        word << 4 | column_with(p, characters[i], tops[i])
    })
}

pub fn top_row_parity(word: u32) -> u32 {
    columns(word)
        .iter()
        .fold(0, |sum, &column| sum ^ top(column))
}

pub fn syndrome_of(word: u32) -> u32 {
    let columns = columns(word);
    let first = parity(columns[0]);
    let mut syndrome = 0;
    for &column in &columns[1..] {
        syndrome = syndrome << 1 | (parity(column) ^ first);
    }
    syndrome = syndrome << 1 | (top_row_parity(word) ^ first);
    // The last six bits: what columns 4 to 6 project to, plus what columns 1 to 3 demand there.
    let demanded = hexacodeword(
        projection(columns[0]),
        projection(columns[1]),
        projection(columns[2]),
    );
    for i in 3..COLUMNS {
        syndrome = syndrome << 2 | (projection(columns[i]) ^ demanded[i]);
    }
    syndrome
}

pub fn distance(word: u32, other: u32) -> u32 {
    (word ^ other).count_ones()
}

/// The bit of a word at a place counted from 0: position 1 (1.2) is place 0, worth 2^23.
pub fn bit_at(word: u32, place: usize) -> bool {
    word >> (POSITIONS - 1 - place) & 1 == 1
}
