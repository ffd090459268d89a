//! One run of a program as a child process: how it gets its input, and what it wrote.

use std::fs::File;
use std::io::{self, ErrorKind, Read, Write};
use std::iter;
use std::process::{Child, ChildStdin, Command, Output, Stdio};
use std::thread;
use std::time::Duration;

/// What a program is run with.
pub struct Run<'a> {
    pub words: Vec<String>,
    pub input: StandardInput<'a>,
    /// How many bytes the program writes before it reads.
    pub header: u64,
}

/// A folder may stand for the file, which then can't be read.
pub enum StandardInput<'a> {
    Nothing,
    File(String),
    Pipe(Pieces, &'a [u8]),
    Closed,
}

/// What goes into a pipe at once: a first piece, then pieces of one size, with a pause after each.
#[derive(Clone, Copy)]
pub struct Pieces {
    pub first: usize,
    pub next: usize,
}

/// Lets the program, which waits, read a piece before the next one comes.
const PAUSE: Duration = Duration::from_millis(2);
/// Lets a program start that writes nothing before it reads.
const START: Duration = Duration::from_millis(50);

pub struct Written {
    pub output: Vec<u8>,
    pub errors: Vec<u8>,
}

/// What the program wrote; an end by a signal or with a status other than 0 is a reason too.
pub fn run(program: &[&str], run: &Run) -> Result<Written, String> {
    let ended = started(program, run)
        .and_then(|child| ended(child, run))
        .map_err(|reason| format!("{}: {reason}", program[0]))?;
    if !ended.status.success() {
        return Err(format!("the program ended with {}", ended.status));
    }
    Ok(Written {
        output: ended.stdout,
        errors: ended.stderr,
    })
}

fn started(program: &[&str], run: &Run) -> io::Result<Child> {
    // Only a shell can start a program without a standard input.
    let closing: &[&str] = match &run.input {
        StandardInput::Closed => &["sh", "-c", "exec \"$@\" <&-", "sh"],
        _ => &[],
    };
    let words = [closing, program].concat();
    let input = match &run.input {
        StandardInput::Nothing | StandardInput::Closed => Stdio::null(),
        StandardInput::File(file) => File::open(file)?.into(),
        StandardInput::Pipe(..) => Stdio::piped(),
    };
    Command::new(words[0])
        .args(&words[1..])
        .args(&run.words)
        .stdin(input)
        .stdout(Stdio::piped())
        .stderr(Stdio::piped())
        .spawn()
}

/// Feeds a pipe while the output is taken, so that neither side waits for the other for ever; not
/// before the header has come, since the pieces would gather while the program starts.
fn ended(mut child: Child, run: &Run) -> io::Result<Output> {
    let (pieces, bytes) = match &run.input {
        StandardInput::Pipe(pieces, bytes) => (*pieces, *bytes),
        _ => return child.wait_with_output(),
    };
    let pipe = child.stdin.take().expect("a pipe");
    let mut written = child.stdout.take().expect("a pipe");
    let mut output = Vec::new();
    written.by_ref().take(run.header).read_to_end(&mut output)?;
    if run.header == 0 {
        thread::sleep(START);
    }
    thread::scope(|scope| {
        let feeding = scope.spawn(|| feed(pipe, pieces, bytes));
        written.read_to_end(&mut output)?;
        let ended = child.wait_with_output()?;
        feeding.join().expect("the thread that feeds")?;
        Ok(Output {
            stdout: output,
            ..ended
        })
    })
}

fn feed(mut pipe: ChildStdin, pieces: Pieces, bytes: &[u8]) -> io::Result<()> {
    let (first, rest) = bytes.split_at(pieces.first.min(bytes.len()));
    for piece in iter::once(first).chain(rest.chunks(pieces.next)) {
        match pipe.write_all(piece) {
            // The program need not read on once the run has stopped.
            Err(reason) if reason.kind() == ErrorKind::BrokenPipe => return Ok(()),
            written => written?,
        }
        thread::sleep(PAUSE);
    }
    Ok(())
}
