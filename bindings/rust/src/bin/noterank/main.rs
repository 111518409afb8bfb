//! `noterank`: the ranking and the writing of a note file from the command line.

#![forbid(unsafe_code)]

mod arguments;
mod check;
mod file;
mod search;
mod table;
mod write;

use std::ffi::OsString;
use std::io::{self, ErrorKind, Write};
use std::process::ExitCode;

use arguments::Command;

/// What goes to standard output, and the exit status.
pub struct Answer {
    out: Vec<u8>,
    status: u8,
}

impl Answer {
    fn answered(out: impl Into<Vec<u8>>) -> Answer {
        Answer { out: out.into(), status: 0 }
    }

    fn negative(out: impl Into<Vec<u8>>) -> Answer {
        Answer { out: out.into(), status: 1 }
    }
}

/// What goes to standard error, and the exit status.
pub struct Failure {
    text: String,
    status: u8,
}

impl Failure {
    fn refused(text: String) -> Failure {
        Failure { text, status: 1 }
    }

    fn usage(text: String) -> Failure {
        Failure { text: format!("{text}\nnoterank --help tells how it is used"), status: 2 }
    }

    fn unreadable(text: String) -> Failure {
        Failure { text, status: 2 }
    }
}

fn answer(words: Vec<OsString>) -> Result<Answer, Failure> {
    match arguments::parse(words).map_err(Failure::usage)? {
        Command::Help => Ok(Answer::answered(include_str!("help.txt"))),
        Command::Check(path) => check::check(&path),
        Command::Write(contents, file) => write::write(&contents, file.as_deref()),
        Command::Dump(path) => write::dump(&path),
        Command::Search(request) => search::search(&request),
        Command::Both(request) => search::both(&request),
        Command::Sample(folder) => file::write_samples(&folder),
    }
}

/// A reader that has gone away, as `head` does, is no failure.
fn print(bytes: &[u8]) -> Result<(), Failure> {
    let mut out = io::stdout().lock();
    match out.write_all(bytes).and_then(|()| out.flush()) {
        Err(error) if error.kind() != ErrorKind::BrokenPipe => {
            Err(Failure::unreadable(format!("standard output cannot be written: {error}")))
        }
        _ => Ok(()),
    }
}

fn main() -> ExitCode {
    let words = std::env::args_os().skip(1).collect();
    let printed = answer(words).and_then(|answer| print(&answer.out).map(|()| answer.status));
    let status = printed.unwrap_or_else(|failure| {
        // Nobody is left to be told if this fails too.
        let _ = writeln!(io::stderr(), "noterank: {}", failure.text);
        failure.status
    });
    ExitCode::from(status)
}
