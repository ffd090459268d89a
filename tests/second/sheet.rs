//! What the report program must write for captures: the sheet (18.6), and a line for each capture
//! that stops (18.8). The sheet is found from the whole history of readings (18.4), without a tally:
//! a history that takes a count to its end would not fit here, so no record is refused with 12.

use crate::capture;
use crate::code::{Code, MESSAGES};
use crate::decoders::{Refusal, SoftAnswer};

/// What the soft decoder makes of each record's reading, over all captures in order (18.5).
#[derive(Default)]
pub struct History {
    answers: Vec<Result<SoftAnswer, Refusal>>,
}

impl History {
    pub fn take_in(&mut self, code: &Code, capture: &[u8]) {
        let readings = capture::readings(capture);
        self.answers
            .extend(readings.iter().map(|reading| code.soft(reading)));
    }

    pub fn sheet(&self) -> String {
        let accepted = self.accepted();
        let reserves = || accepted.iter().map(|answer| answer.reserve);
        let smallest = reserves().min();
        [
            format!("read {}\n", self.answers.len()),
            format!("accepted {}\n", accepted.len()),
            format!("refused 2 {}\n", self.refused(Refusal::ForbiddenConfidence)),
            format!("refused 6 {}\n", self.refused(Refusal::Tied)),
            (0..MESSAGES)
                .map(|message| message_line(&accepted, message))
                .collect(),
            smallest.map_or("smallest none\n".to_string(), |reserve| {
                format!("smallest {reserve}\n")
            }),
            format!("total {}\n", reserves().sum::<i64>()),
        ]
        .concat()
    }

    fn accepted(&self) -> Vec<&SoftAnswer> {
        self.answers.iter().flatten().collect()
    }

    fn refused(&self, refusal: Refusal) -> usize {
        let refused = |answer: &&Result<SoftAnswer, Refusal>| **answer == Err(refusal);
        self.answers.iter().filter(refused).count()
    }
}

/// Nothing for a message that was never accepted.
fn message_line(accepted: &[&SoftAnswer], message: u32) -> String {
    match accepted
        .iter()
        .filter(|answer| answer.message == message)
        .count()
    {
        0 => String::new(),
        times => format!("message {message} {times}\n"),
    }
}

/// Nothing where the capture with this name ends without a stop.
pub fn stop_line(name: &str, bytes: &[u8]) -> String {
    capture::stopped(bytes).map_or(String::new(), |stopped| format!("{name}: {stopped}\n"))
}
