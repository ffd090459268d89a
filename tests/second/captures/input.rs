//! How the capture program gets a capture.

use crate::runs::child::{Pieces, Run, StandardInput};

/// The last four hold nothing that the program could read.
#[derive(Clone, Copy)]
pub enum Input {
    Argument,
    StandardInput,
    Dash,
    Pipe(Pieces),
    MissingFile,
    Folder,
    FolderAsStandardInput,
    ClosedStandardInput,
}

/// The bytes of the header (13.2), which the program writes before it reads.
const HEADER: u64 = 16;

impl Input {
    /// The run of the program on a capture that stands in a file.
    pub fn run<'a>(self, file: &str, bytes: &'a [u8]) -> Run<'a> {
        let (file, folder) = (file.to_string(), super::FOLDER.to_string());
        let (words, input) = match self {
            Input::Argument => (vec![file], StandardInput::Nothing),
            Input::StandardInput => (vec![], StandardInput::File(file)),
            Input::Dash => (vec!["-".to_string()], StandardInput::File(file)),
            Input::Pipe(pieces) => (vec![], StandardInput::Pipe(pieces, bytes)),
            Input::MissingFile => (vec![missing(&file)], StandardInput::Nothing),
            Input::Folder => (vec![folder], StandardInput::Nothing),
            Input::FolderAsStandardInput => (vec![], StandardInput::File(folder)),
            Input::ClosedStandardInput => (vec![], StandardInput::Closed),
        };
        Run {
            words,
            input,
            header: HEADER,
        }
    }

    /// The program's one line where it can't read its input.
    pub fn complaint(self, file: &str) -> Option<String> {
        match self {
            Input::Argument | Input::StandardInput | Input::Dash | Input::Pipe(_) => None,
            Input::MissingFile => Some(format!("{}: No such file or directory\n", missing(file))),
            Input::Folder => Some(format!("{}: Is a directory\n", super::FOLDER)),
            Input::FolderAsStandardInput => Some("standard input: Is a directory\n".to_string()),
            Input::ClosedStandardInput => Some("standard input: Bad file descriptor\n".to_string()),
        }
    }
}

fn missing(file: &str) -> String {
    format!("{file}.missing")
}
