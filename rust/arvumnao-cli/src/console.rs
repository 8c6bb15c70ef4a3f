//! Messages for people, on standard error. A message that can't be written there is lost.

use crate::failure::Failure;
use std::env;
use std::io::{self, IsTerminal, Write};

#[derive(Clone, Copy)]
pub struct Console {
    quiet: bool,
    terminal: bool,
    coloured: bool,
}

/// Colours by their numbers in a terminal.
#[derive(Clone, Copy)]
pub enum Colour {
    Bold = 1,
    Red = 31,
    Green = 32,
    Yellow = 33,
}

impl Console {
    pub fn new(quiet: bool) -> Console {
        let terminal = io::stderr().is_terminal();
        Console { quiet, terminal, coloured: terminal && colours_wanted() }
    }

    /// Whether somebody watches: rows and moving bars are only for a terminal.
    pub fn watched(&self) -> bool {
        self.terminal && !self.quiet
    }

    /// A line that --quiet leaves out.
    pub fn say(&self, line: &str) {
        if !self.quiet {
            self.tell(line);
        }
    }

    /// A line that is always printed.
    pub fn tell(&self, line: &str) {
        self.put(&format!("{line}\n"));
    }

    /// Text as it is.
    pub fn put(&self, text: &str) {
        let mut error = io::stderr().lock();
        let _ = error.write_all(text.as_bytes()).and_then(|()| error.flush());
    }

    /// Why the command, or its work on one job, ended.
    pub fn fail(&self, failure: &Failure) {
        if !matches!(failure, Failure::ClosedPipe | Failure::Told(_)) {
            self.tell(&format!("{}: {failure}", self.paint(Colour::Red, "arvumnao")));
        }
    }

    /// The text in a colour, on a terminal that shows them.
    pub fn paint(&self, colour: Colour, text: &str) -> String {
        if !self.coloured {
            return text.to_string();
        }
        format!("\x1b[{}m{text}\x1b[0m", colour as u8)
    }
}

/// The usual ways to ask for no colours.
fn colours_wanted() -> bool {
    let unset = |name| env::var_os(name).map_or(true, |value| value.is_empty());
    unset("NO_COLOR") && env::var_os("TERM").map_or(true, |term| term != "dumb")
}
