//! `arvumnao`: routes job texts of a programmable logic block, and reports on them. Verdicts, routes and counts come from the proved
//! library; this adds files, tables and sentences.

mod args;
mod commands;
mod console;
mod failure;
mod files;
mod help;
mod interrupt;
mod json;
mod kinds;
mod many;
mod routes;
mod run;
mod table;
mod verdict;
mod watch;

use args::{closest, Args};
use commands::{Command, COMMANDS};
use console::Console;
use failure::{Failure, Status};
use files::Output;
use std::ffi::OsString;
use std::process::ExitCode;

fn main() -> ExitCode {
    let words: Vec<OsString> = std::env::args_os().skip(1).collect();
    let status = begin(&words).unwrap_or_else(|failure| {
        Console::new(false).fail(&failure);
        failure.status()
    });
    ExitCode::from(status as u8)
}

/// Finds the subcommand. The options that all subcommands have may come before it.
fn begin(words: &[OsString]) -> Result<Status, Failure> {
    let named = words.iter().position(|word| !word.to_string_lossy().starts_with('-'));
    let (before, rest) = words.split_at(named.unwrap_or(words.len()));
    if before.iter().any(|word| word == "--version" || word == "-V") {
        return print(&format!("arvumnao {}\n", env!("CARGO_PKG_VERSION")));
    }
    let general = Args::read(before, &[]).map_err(|failure| hinted(&failure, "arvumnao"))?;
    match rest.split_first() {
        _ if general.has("help") => print(&help::general()),
        None => Err(hinted(&Failure::usage("no subcommand is named"), "arvumnao")),
        Some((name, words)) => {
            let command = find(&name.to_string_lossy())?;
            let words: Vec<OsString> = before.iter().chain(words).cloned().collect();
            perform(command, &words)
        }
    }
}

fn find(name: &str) -> Result<&'static Command, Failure> {
    COMMANDS.iter().find(|command| command.name == name).ok_or_else(|| {
        let meant = closest(name, COMMANDS.iter().map(|command| command.name));
        let hint = meant.map_or(String::new(), |meant| format!("; did you mean {meant}?"));
        hinted(&Failure::usage(format!("no subcommand '{name}'{hint}")), "arvumnao")
    })
}

fn perform(command: &'static Command, words: &[OsString]) -> Result<Status, Failure> {
    let called = format!("arvumnao {}", command.name);
    let args = Args::read(words, command.options).map_err(|failure| hinted(&failure, &called))?;
    if args.has("help") {
        return print(&help::of(command));
    }
    let wrong = match args.jobs.len() {
        0 => Some("no job is named"),
        2.. if !command.several => Some("one job is taken, and several are named"),
        _ => None,
    };
    if let Some(wrong) = wrong {
        return Err(hinted(&Failure::usage(wrong), &called));
    }
    let console = Console::new(args.has("quiet"));
    (command.run)(&args, &console).map_err(|failure| hinted(&failure, &called))
}

/// Wrong arguments, with a hint at the help.
fn hinted(failure: &Failure, called: &str) -> Failure {
    match failure {
        Failure::Usage(text) => Failure::usage(format!("{text} (see {called} --help)")),
        Failure::File(name, why) => Failure::File(name.clone(), why.clone()),
        Failure::ClosedPipe => Failure::ClosedPipe,
        Failure::Told(status) => Failure::Told(*status),
    }
}

fn print(text: &str) -> Result<Status, Failure> {
    Output::Standard.write(text.as_bytes()).map(|()| Status::Routed)
}
