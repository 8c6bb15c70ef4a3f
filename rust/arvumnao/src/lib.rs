//! A router for a programmable logic block. It lets nets share wires at a price, raises the price where they crowd, and repeats
//! until no wire is overfull. The code of the library that this crate calls is proved. This crate adds types, memory and sentences,
//! and needs no other crate.
//!
//! From a job text to the routes text, and to the log of paths and costs:
//!
//! ```
//! let text = "F,3,2,1,1\nN,0,0,1\nN,1,4,1\nN,2,1,1\nE,0,1\nE,1,2\nS,0,0\nT,0,2\n";
//! let job = arvumnao::Job::read(text.as_bytes())?;
//! let answer = job.route()?;
//! assert_eq!(answer.log.routes(&job.nets)?, "R,1,1\nB,0,0,1\nB,0,1,2\n");
//! for turn in &answer.log {
//!     println!("{turn}"); // iteration 1, net 0, sink 2, cost 4000, path 0 1 2
//! }
//! # Ok::<(), arvumnao::Refusal>(())
//! ```
//!
//! A [`Job`] can also be built from its tables. A refusal is a sentence that says what to change:
//!
//! ```
//! let refusal = arvumnao::Job::read(b"F,3,2,1,1\nN,0,0,1\nN,1,54,1\n").unwrap_err();
//! assert_eq!(refusal.to_string(), "line 3: kind 54 is beyond 0 to 53: \"N,1,54,1\"");
//! ```
//!
//! The refusal of a run that was stopped has its log, and [`Job::resume`] continues from it under a higher limit:
//!
//! ```
//! use arvumnao::{Job, Refusal};
//!
//! let mut job = Job::read(include_bytes!("../../../examples/job_b.txt"))?;
//! job.terms.limit = 1;
//! let Err(Refusal::Limit { over, log, .. }) = job.route() else { panic!("job B settles in iteration 2") };
//! assert_eq!((over, log.records().count()), (1, 2));
//! job.terms.limit = 2;
//! assert_eq!(job.resume(&log)?.turns, 4);
//! # Ok::<(), Refusal>(())
//! ```
//!
//! [`Job::route_with`] reports each iteration during the run, and may stop it. [`Log::replay`] goes through a log again and says what
//! each turn paid for; [`Log::audit`] says whether each turn of a log, whoever made it, is a cheapest one; [`Log::trees`] has the final
//! trees. [`Job::text`] and [`Log::text`] write what [`Job::read`] and
//! [`Log::read`] read.
//!
//! A job with a [`Timing`] is timed: its critical sinks pay for delay rather than for room. [`Job::route_aimed`] routes by a search that
//! aims, to the same answer, and counts the nodes that it expanded.
//!
//! `docs/FORMAT.md` describes the texts, the log and every refusal. [`raw`] has the library's calls themselves, for callers with
//! memory of their own.
//!
//! Build the library first, by `tools/build capi`. It is expected in `target/staticlib` two folders above this package, or in
//! the folder that the environment variable `ARVUMNAO_LIB_DIR` names.
//!
//! Calls share nothing, so any number of threads may call at the same time. A call needs [`raw::STACK`] bytes of stack; Rust's
//! threads have more, unless they are made with less.

#![warn(missing_docs)]

mod alone;
mod audit;
mod job;
pub mod kind;
mod line;
mod log;
mod logtext;
pub mod raw;
mod refusal;
mod replay;
mod run;
#[cfg(test)]
mod steps;
mod table;
mod text;
mod trees;
mod uses;
mod walk;
mod watch;

pub use alone::{Congestion, Use};
pub use audit::{Audit, Finding};
pub use job::{Block, Job, Nets, Terms, Timing, EDGES, LIMIT, NETS, NODES, SINKS, TIMED_LIMIT, TIMED_NODES};
pub use log::{Log, Record, Records};
pub use refusal::{LineFault, Refusal, TableFault};
pub use replay::{Iteration, Replay, Step, Turn};
pub use run::{Aimed, Answer, Search};
pub use trees::{Overfull, Tree};
pub use uses::UseCounts;
pub use watch::Progress;

/// This crate's version, as three numbers: major, minor, patch. The header has the same.
pub const VERSION: [u32; 3] = [
    number(env!("CARGO_PKG_VERSION_MAJOR")),
    number(env!("CARGO_PKG_VERSION_MINOR")),
    number(env!("CARGO_PKG_VERSION_PATCH")),
];

/// The number that these digits stand for.
const fn number(digits: &str) -> u32 {
    let (digits, mut place, mut sum) = (digits.as_bytes(), 0, 0);
    while place < digits.len() {
        sum = 10 * sum + (digits[place] - b'0') as u32;
        place += 1;
    }
    sum
}

/// The numbers that a call leaves in `out`.
fn out(call: impl FnOnce(&mut [u64]) -> u32) -> [u64; raw::OUT] {
    let mut out = [0; raw::OUT];
    assert_eq!(call(&mut out), 1, "the library wants an out of another length: it is not of this version");
    out
}

/// The examples of the README.
#[cfg(doctest)]
#[doc = include_str!("../../../README.md")]
struct Readme;
