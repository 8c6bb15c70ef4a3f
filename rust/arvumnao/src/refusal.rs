//! Why a call was refused, in numbers and in words.

use crate::job::{Job, TIMED_LIMIT, TIMED_NODES};
use crate::log::Log;
use crate::trees::Overfull;
use crate::{line, table};
use std::error::Error;
use std::fmt;

/// Why a call was refused. Its `Display` is a sentence that says what to change, [`Refusal::numbers`] are the numbers that the
/// program prints after `X,`.
///
/// `docs/FORMAT.md` lists all refusals. Those that can't happen here are left out: this crate lends tables, work memory and buffers that are
/// long enough.
#[derive(Clone, Debug, PartialEq, Eq)]
#[non_exhaustive]
pub enum Refusal {
    /// 1, 2, 3: a line of a job text is faulty.
    Line(LineFault),
    /// 5: a table breaks its rule.
    Table(TableFault),
    /// 7: a sink has no path from its net's source.
    Unreachable {
        /// The net: the first of its source.
        net: u32,
        /// The sink's place, from 0, among the sinks of all nets of that source, each once.
        place: u32,
        /// The net's source node.
        source: u16,
        /// The sink's node.
        sink: u16,
        /// The T line that lists it first, without its LF, as `T,0,4`.
        line: String,
    },
    /// 8: the log had no room for the next turn.
    LogFull {
        /// The iteration of the turn that didn't fit.
        iteration: u32,
        /// The turns made.
        turns: u64,
        /// Their records.
        log: Log,
    },
    /// 9: the limit of iterations was reached with nodes over capacity.
    Limit {
        /// The last iteration, which is the limit.
        iteration: u32,
        /// How many nodes were over capacity after it.
        over: u32,
        /// These nodes, with their nets.
        overfull: Vec<Overfull>,
        /// Whether a higher limit is allowed: 100 is the highest, in a timed job [`TIMED_LIMIT`].
        may_rise: bool,
        /// The turns made.
        turns: u64,
        /// Their records.
        log: Log,
    },
    /// 10: a stored log is empty or has an unsound record, or one that is added to counts has a node that the block lacks.
    Record {
        /// The place of that record's first word.
        word: u64,
    },
    /// 13: a number given to the price or the search, or one of the counts of uses, is beyond its bounds.
    Number {
        /// Its place among the price's five numbers, after which a timed price has delay and criticality, or the node in the search; the
        /// node count for the search's factor, one more for the criticality of a timed search. In counts the kind, or 54 for the
        /// number of logs.
        place: u64,
        /// What is wrong with it.
        reason: String,
    },
    /// 14: a log to continue from doesn't follow the job.
    Diverges {
        /// The first word of the first record that doesn't follow, or the number of the log's words if only its end is wrong.
        word: u64,
        /// The log's words.
        words: u64,
    },
    /// 15: a timed job, or the block of a timed search, is too large.
    TooLarge {
        /// Its nodes, at most [`TIMED_NODES`].
        nodes: u32,
        /// Its limit, at most [`TIMED_LIMIT`]; 0 for a search.
        limit: u32,
    },
    /// 16: the counts of uses have the highest number of logs already.
    CountsFull {
        /// That number: 65,535.
        logs: u64,
    },
    /// Not from the library: a run was [stopped](Job::route_with) after an iteration by its watcher.
    Stopped {
        /// The last iteration, which is whole.
        iteration: u32,
        /// The turns made.
        turns: u64,
        /// Their records, of whole iterations: [`Job::resume`] continues from them.
        log: Log,
    },
    /// Not from the library: in a [replay](Log::replay) the prices don't add up to a logged cost.
    Replay {
        /// The place of the record's first word.
        word: u64,
        /// What is wrong with it.
        reason: String,
    },
    /// Not from the library: a line of a [log text](Log::read) is faulty.
    LogLine(LineFault),
    /// A refusal that this call can't have: the library has another version than this crate.
    Unexpected(Vec<u64>),
}

/// What is wrong with a line of a job text, or of a log text.
#[derive(Clone, Debug, PartialEq, Eq)]
pub struct LineFault {
    /// 1 for its shape, 2 for a value beyond its bounds, 3 for order or number; in a log text 10 for an unsound record.
    pub number: u64,
    /// The line, from 1.
    pub line: u64,
    /// The line itself without its LF, unprintable bytes escaped; none if the text ends before it.
    pub quoted: Option<String>,
    /// What is wrong with it. None only if the line is not the first faulty one.
    pub reason: Option<String>,
    /// The byte of the line, from 0, at which that is. None if the text ends before the line, or without a reason.
    pub column: Option<usize>,
}

/// What is wrong with a job's tables.
#[derive(Clone, Debug, PartialEq, Eq)]
pub struct TableFault {
    /// The lowest table that breaks its rule: 1 to 7, 8 for the terms, 9 or 10 of a timed job.
    pub table: u32,
    /// The first entry that breaks it. None only if none does.
    pub reason: Option<String>,
}

impl Refusal {
    /// The refusal's number and its further numbers, as `docs/FORMAT.md` lists them; none if the library didn't refuse.
    pub fn numbers(&self) -> Vec<u64> {
        match self {
            Refusal::Line(fault) => vec![fault.number, fault.line],
            Refusal::Table(fault) => vec![5, fault.table.into()],
            Refusal::Unreachable { net, place, .. } => vec![7, (*net).into(), (*place).into()],
            Refusal::LogFull { iteration, turns, .. } => vec![8, (*iteration).into(), *turns],
            Refusal::Limit { iteration, over, .. } => vec![9, (*iteration).into(), (*over).into()],
            Refusal::Record { word } => vec![10, *word],
            Refusal::Number { place, .. } => vec![13, *place],
            Refusal::Diverges { word, .. } => vec![14, *word],
            Refusal::TooLarge { nodes, limit } => vec![15, (*nodes).into(), (*limit).into()],
            Refusal::CountsFull { logs } => vec![16, *logs],
            Refusal::Stopped { .. } | Refusal::Replay { .. } | Refusal::LogLine(_) => Vec::new(),
            Refusal::Unexpected(numbers) => numbers.clone(),
        }
    }

    /// The same for a timed job.
    pub(crate) fn too_large(nodes: u64, limit: u64) -> Refusal {
        Refusal::TooLarge { nodes: nodes as u32, limit: limit as u32 }
    }

    /// A refusal that the call's slices rule out.
    pub(crate) fn unexpected(numbers: &[u64]) -> Refusal {
        Refusal::Unexpected(numbers.to_vec())
    }
}

impl LineFault {
    /// What is wrong with the line that the reader, or the program, refused by these two numbers.
    pub fn find(text: &[u8], number: u64, line: u64) -> LineFault {
        let quoted = line::quoted(text, line);
        let (column, reason) = line::reason(text, number, line).unzip();
        LineFault { number, line, column: column.filter(|_| quoted.is_some()), quoted, reason }
    }
}

impl TableFault {
    /// What is wrong with the table that the router refused.
    pub fn find(job: &Job, table: u32) -> TableFault {
        TableFault { table, reason: table::reason(job, table) }
    }

    /// What is wrong with the sources that the routes writer refused. The writer has no block, so they need not be nodes of one.
    pub fn of_log(source: &[u16]) -> TableFault {
        TableFault { table: 5, reason: table::source_reason(source) }
    }
}

impl fmt::Display for LineFault {
    fn fmt(&self, f: &mut fmt::Formatter<'_>) -> fmt::Result {
        let general = match self.number {
            1 => "wrong shape",
            2 => "a value beyond its bounds",
            _ => "wrong order or number",
        };
        write!(f, "line {}: {}", self.line, self.reason.as_deref().unwrap_or(general))?;
        self.quoted.as_ref().map_or(Ok(()), |quoted| write!(f, ": \"{quoted}\""))
    }
}

impl fmt::Display for TableFault {
    fn fmt(&self, f: &mut fmt::Formatter<'_>) -> fmt::Result {
        let (name, rule) = table::NAMES_AND_RULES[(self.table as usize).saturating_sub(1).min(9)];
        match &self.reason {
            Some(reason) => write!(f, "table {} ({name}): {reason}", self.table),
            None => write!(f, "table {} ({name}) breaks its rule: {rule}", self.table),
        }
    }
}

impl fmt::Display for Refusal {
    fn fmt(&self, f: &mut fmt::Formatter<'_>) -> fmt::Result {
        match self {
            Refusal::Line(fault) => fault.fmt(f),
            Refusal::Table(fault) => fault.fmt(f),
            Refusal::Unreachable { net, source, sink, line, .. } => {
                write!(f, "{line}: no path leads from node {source}, the source of net {net}, to sink {sink}")
            }
            Refusal::LogFull { iteration, turns, .. } => write!(
                f,
                "the log is full after {turns} turns, in iteration {iteration}: a longer log lets the job continue"
            ),
            Refusal::Limit { iteration, overfull, may_rise, .. } => {
                not_settled(f, *iteration, overfull, *may_rise)
            }
            Refusal::Record { word: 0 } => write!(f, "the log is empty or its first record is unsound"),
            Refusal::Record { word } => write!(f, "the log's record at word {word} is unsound"),
            Refusal::Number { reason, .. } => f.write_str(reason),
            Refusal::Diverges { word, words } => diverges(f, *word, *words),
            Refusal::TooLarge { nodes, limit: 0 } => {
                write!(f, "{nodes} nodes: a timed search takes at most {TIMED_NODES}")
            }
            Refusal::TooLarge { nodes, limit } => write!(
                f,
                "{nodes} nodes and a limit of {limit}: a timed job has at most {TIMED_NODES} nodes and a limit of at most {TIMED_LIMIT}"
            ),
            Refusal::CountsFull { logs } => {
                write!(f, "the counts have {logs} logs already, the highest number: begin new ones")
            }
            Refusal::Stopped { iteration, turns, .. } => {
                write!(f, "stopped after iteration {iteration} and {turns} turns; a run can continue from the log")
            }
            Refusal::Replay { word, reason } => write!(f, "the log's record at word {word}: {reason}"),
            Refusal::LogLine(fault) => fault.fmt(f),
            Refusal::Unexpected(numbers) => {
                write!(f, "refused by {numbers:?}: the library is not of this version")
            }
        }
    }
}

/// The limit was reached with these nodes over capacity.
fn not_settled(f: &mut fmt::Formatter, iteration: u32, overfull: &[Overfull], may_rise: bool) -> fmt::Result {
    let (highest, raise) = if may_rise { ("", "raise the limit, ") } else { ("highest ", "") };
    let are = if overfull.len() == 1 { " is" } else { "s are" };
    write!(
        f,
        "not settled by iteration {iteration}, the {highest}limit: {} node{are} over capacity: {}; {raise}tune the tariff or give \
         those nodes room",
        overfull.len(),
        listed(overfull)
    )
}

/// A log of `words` words follows the job up to `word`.
fn diverges(f: &mut fmt::Formatter, word: u64, words: u64) -> fmt::Result {
    if words == 0 {
        write!(f, "the log is empty: there is no run to continue")
    } else if word < words {
        write!(f, "the log's record at word {word} does not follow the job")
    } else {
        write!(
            f,
            "the log follows the job to its end, at word {word}, but can't be continued: its last iteration is not whole, leaves no \
             node over capacity, or is the limit"
        )
    }
}

/// The most things that a sentence lists.
const LISTED: usize = 8;

/// The things in a row; of many the first few.
pub(crate) fn listed<T: fmt::Display>(things: &[T]) -> String {
    let shown: Vec<String> = things.iter().take(LISTED).map(T::to_string).collect();
    match things.len().saturating_sub(LISTED) {
        0 => shown.join(", "),
        more => format!("{} and {more} more", shown.join(", ")),
    }
}

impl Error for Refusal {}
