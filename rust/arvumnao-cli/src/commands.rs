//! The subcommands. One is a module and a row here.

mod audit;
mod check;
mod log;
mod picture;
mod report;
mod route;
mod uses;

use crate::args::{Args, Opt};
use crate::console::Console;
use crate::failure::{Failure, Status};

/// A subcommand.
pub struct Command {
    pub name: &'static str,
    /// In a few words what it does.
    pub summary: &'static str,
    /// What stands after its name.
    pub usage: &'static str,
    pub about: &'static str,
    pub options: &'static [Opt],
    /// Whether it takes several jobs, or a job and a log.
    pub several: bool,
    pub run: fn(&Args, &Console) -> Result<Status, Failure>,
}

pub const COMMANDS: [Command; 7] = [
    route::COMMAND,
    check::COMMAND,
    log::COMMAND,
    audit::COMMAND,
    report::COMMAND,
    picture::COMMAND,
    uses::COMMAND,
];
