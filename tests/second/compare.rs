//! Comparing a file of answers with this program's own, line by line.

use crate::code::Code;
use crate::line::{cases_of, lines_of, Case};
use std::fs;

/// More disagreements than these are only counted.
pub const SHOWN: usize = 10;

pub struct Report {
    pub text: String,
    pub passed: bool,
}

fn text_of(file: &str) -> Result<String, String> {
    fs::read_to_string(file).map_err(|reason| format!("{file}: {reason}"))
}

/// Passed only where all agree and there was something to agree on.
pub fn compare(code: &Code, cases_file: &str, answers_file: &str) -> Result<Report, String> {
    let cases = cases_of(cases_file, &text_of(cases_file)?)?;
    let answers_text = text_of(answers_file)?;
    let answers = lines_of(&answers_text);
    // An answer without a case counts as failed too: the numbers must not look clean where the
    // lengths differ.
    let lines = cases.len().max(answers.len());
    let disagreements: Vec<String> = (0..lines)
        .filter_map(|i| disagreement(code, i + 1, cases.get(i), answers.get(i).copied()))
        .collect();
    let failed = disagreements.len();
    let mut text: String = disagreements.into_iter().take(SHOWN).collect();
    if cases.len() != answers.len() {
        text += &format!("{} cases, but {} answers\n", cases.len(), answers.len());
    }
    text += &format!("{} passed, {failed} failed\n", lines - failed);
    let passed = failed == 0 && lines > 0;
    Ok(Report { text, passed })
}

/// What to show of a line whose answer isn't this program's own, or nothing where it is.
fn disagreement(
    code: &Code,
    line: usize,
    case: Option<&Case>,
    got: Option<&str>,
) -> Option<String> {
    let expected = case.map(|case| case.answer_line(code));
    if expected.as_deref() == got {
        return None;
    }
    let case = case.map_or("(no case)".to_string(), Case::to_string);
    let expected = expected.as_deref().unwrap_or("(no answer)");
    let got = got.unwrap_or("(no answer)");
    Some(format!(
        "line {line}\n  case      {case}\n  expected  {expected}\n  got       {got}\n"
    ))
}
