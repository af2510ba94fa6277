//! What can go wrong, and the exit status of each.

use std::fmt::Display;
use std::io;
use std::path::Path;
use std::process::ExitCode;

const REFUSED: u8 = 1;
const USAGE: u8 = 2;

/// Why the command ends early.
#[derive(Debug)]
pub enum Problem {
    /// The arguments are not those of a command.
    Usage,
    /// Something was refused or could not be read or written; the message says where.
    Bad(String),
    /// The verdict, already printed, is a refusal.
    Refused,
    /// Printing failed.
    Output(io::Error),
}

impl Problem {
    /// A problem with a file as a whole.
    pub fn in_file(file: &Path, what: impl Display) -> Problem {
        Problem::Bad(format!("{}: {what}", file.display()))
    }

    /// A problem at a line of a file, counted from 1.
    pub fn at_line(file: impl Display, line: usize, what: impl Display) -> Problem {
        Problem::Bad(format!("{file}:{line}: {what}"))
    }

    /// Tells the problem on standard error and gives the exit status.
    pub fn report(self, usage: &str) -> ExitCode {
        match self {
            Problem::Usage => {
                eprint!("{usage}");
                ExitCode::from(USAGE)
            }
            Problem::Bad(message) => {
                eprintln!("jundefola: {message}");
                ExitCode::from(REFUSED)
            }
            Problem::Refused => ExitCode::from(REFUSED),
            // whoever reads the output has had enough of it
            Problem::Output(error) if error.kind() == io::ErrorKind::BrokenPipe => {
                ExitCode::SUCCESS
            }
            Problem::Output(error) => {
                eprintln!("jundefola: standard output: {error}");
                ExitCode::from(REFUSED)
            }
        }
    }
}

/// Only printing is left to this; files name themselves by `in_file`.
impl From<io::Error> for Problem {
    fn from(error: io::Error) -> Problem {
        Problem::Output(error)
    }
}
