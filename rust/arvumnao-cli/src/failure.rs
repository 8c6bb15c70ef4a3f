//! How the command ends.

use arvumnao::Refusal;
use std::fmt;
use std::io;

/// The exit status. Of several jobs the highest counts.
#[derive(Clone, Copy, Debug, PartialEq, Eq, PartialOrd, Ord)]
pub enum Status {
    /// Every job was routed.
    Routed = 0,
    /// A text or a table was refused: it has to be corrected.
    Refused = 1,
    /// The arguments are wrong, or a file can't be read or written.
    Trouble = 2,
    /// The job is correct, but was not routed.
    NotRouted = 3,
    /// A turn of an audited log is not a cheapest one.
    NotCheapest = 4,
    /// Ctrl-C ended it: 128 plus the signal's number, as in shells.
    Interrupted = 130,
}

impl Status {
    /// The status of a refused job, or of a refused log.
    pub fn of(refusal: &Refusal) -> Status {
        match (refusal, refusal.numbers().first()) {
            (Refusal::Stopped { .. }, _) => Status::Interrupted,
            (Refusal::LogLine(_), _) | (_, Some(1..=5 | 10 | 14 | 15)) => Status::Refused,
            (_, Some(7..=9)) => Status::NotRouted,
            _ => Status::Trouble,
        }
    }
}

/// Why the command ended before its work was done.
#[derive(Debug)]
pub enum Failure {
    /// The arguments are not those of the subcommand.
    Usage(String),
    /// A file can't be read or written, or doesn't hold what it should: its name, and why.
    File(String, String),
    /// Standard output was closed by its reader.
    ClosedPipe,
    /// The reason was printed already: the command only has to end.
    Told(Status),
}

impl Failure {
    /// A file that can't be read or written.
    pub fn file(name: impl fmt::Display, error: &io::Error) -> Failure {
        Failure::File(name.to_string(), sentence(error))
    }

    /// The status with which the command ends.
    pub fn status(&self) -> Status {
        match self {
            Failure::Told(status) => *status,
            _ => Status::Trouble,
        }
    }

    /// Wrong arguments.
    pub fn usage(text: impl Into<String>) -> Failure {
        Failure::Usage(text.into())
    }
}

/// An error without the number that std adds to it.
fn sentence(error: &io::Error) -> String {
    let text = error.to_string();
    text.split(" (os error").next().unwrap_or_default().to_string()
}

impl fmt::Display for Failure {
    fn fmt(&self, f: &mut fmt::Formatter<'_>) -> fmt::Result {
        match self {
            Failure::Usage(text) => f.write_str(text),
            Failure::File(name, why) => write!(f, "{name}: {why}"),
            Failure::ClosedPipe | Failure::Told(_) => Ok(()),
        }
    }
}
