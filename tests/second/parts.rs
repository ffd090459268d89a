//! What the program of crates/parts reads for a case of two receivers, and what it must print.

use crate::capture::old_record;
use crate::code::{Code, POSITIONS};
use crate::line::{spaced, Case};

/// Room for the longest buffer among the cases, which is one confidence longer than five readings.
const READINGS: usize = 6;

fn better(case: &Case) -> Result<(u64, &[i32], &[i32]), String> {
    match case {
        Case::Better(number, first, second) => Ok((*number, first, second)),
        _ => Err(format!("'{case}' is no case of two receivers")),
    }
}

/// The number in eight bytes, the most significant first; the buffers' lengths in a byte each; and both
/// buffers as six old records of a capture (12.1), zeros after their end.
pub fn bytes_of(case: &Case) -> Result<Vec<u8>, String> {
    let (number, first, second) = better(case)?;
    let mut bytes = number.to_be_bytes().to_vec();
    for buffer in [first, second] {
        if buffer.len() > READINGS * POSITIONS {
            return Err(format!("'{case}' has more than {READINGS} readings"));
        }
        bytes.push(buffer.len() as u8);
    }
    for buffer in [first, second] {
        let mut whole = buffer.to_vec();
        whole.resize(READINGS * POSITIONS, 0);
        whole
            .chunks(POSITIONS)
            .for_each(|reading| bytes.extend(old_record(reading)));
    }
    Ok(bytes)
}

/// How many confidences the part has that is handed back, and these.
pub fn line_of(code: &Code, case: &Case) -> Result<String, String> {
    let (number, first, second) = better(case)?;
    let (_, part) = code.better(number, first, second);
    Ok(format!("{}{}\n", part.len(), spaced(part)))
}
