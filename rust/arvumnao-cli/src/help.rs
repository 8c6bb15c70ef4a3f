//! What `--help` prints.

use crate::args::{Opt, COMMON};
use crate::commands::{Command, COMMANDS};

/// The help of the whole command.
pub fn general() -> String {
    let rows: String =
        COMMANDS.iter().map(|command| format!("  {:<9}{}\n", command.name, command.summary)).collect();
    format!(
        "Routes the nets of a programmable logic block. Verdicts, routes and counts are the proved library's.\n\n\
         usage: arvumnao SUBCOMMAND JOB.. [OPTIONS]\n\n{rows}\n\
         A JOB is a file with a job text (docs/FORMAT.md), - is standard input. Data goes to standard output or the\n\
         file named, everything else to standard error.\n\n  \
         -q, --quiet      print only refusals and errors\n  \
         -h, --help       print this; after a subcommand, what that one takes\n  \
         -V, --version    print the version\n\n{STATUSES}"
    )
}

const STATUSES: &str = "\
Exit status, of several jobs the highest:
  0    all were routed; an audited log is sound
  1    a text or table was refused (refusals 1 to 5 and 15; 10 and 14 of a log)
  2    the arguments or files are the trouble
  3    sound, but not routed (refusals 7, 8, 9)
  4    a turn of an audited log is not a cheapest one
  130  ended by Ctrl-C; SIGTERM counts as such
";

/// The help of a subcommand.
pub fn of(command: &Command) -> String {
    let options: String = command.options.iter().chain(&COMMON).map(row).collect();
    format!(
        "arvumnao {}: {}\n\nusage: arvumnao {} {}\n\n{}\n\n{options}\n{STATUSES}",
        command.name, command.summary, command.name, command.usage, command.about
    )
}

/// An option's line.
fn row(option: &Opt) -> String {
    let short = option.short.map_or(String::from("    "), |letter| format!("-{letter}, "));
    let value = option.value.map_or(String::new(), |value| format!(" {value}"));
    let name = format!("{short}--{}{value}", option.long);
    format!("  {name:<22}  {}\n", option.says)
}
