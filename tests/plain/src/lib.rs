//! A plain and slow router, written from 01-scope.md and 02-change-requests.md alone, to compare others with. But `cheapest_path` and
//! `aimed_path` are inner calls of the proved router, and follow those in their parameters, in how they read faulty entries and in what
//! they leave.

mod aim;
mod audit;
mod flow;
mod join;
mod log;
mod price;
mod reader;
mod resume;
mod route;
mod search;
mod tables;
mod uses;
mod writer;

pub use aim::aimed_path;
pub use audit::audit;
pub use flow::{sizes, Lent, Routed, Tables, Writer};
pub use price::{price, timed_price, Tuning};
pub use reader::read;
pub use resume::{resume, resume_aimed};
pub use route::{route, route_aimed};
pub use search::{cheapest_path, search, timed_search, Weighting};
pub use uses::{uses_add, uses_write, KINDS};
pub use writer::{dot, write};

/// What a call returns: the refusal's numbers (none if there is none) and the call's own numbers.
#[derive(Clone, Debug, PartialEq, Eq)]
pub struct Answer {
    pub refusal: Vec<u64>,
    pub numbers: Vec<u64>,
}

impl Answer {
    /// No refusal, with the call's own numbers.
    fn good(numbers: &[u64]) -> Answer {
        Answer { refusal: Vec::new(), numbers: numbers.to_vec() }
    }

    /// A refusal; the call's own numbers (so many of them) are all 0.
    fn refused(refusal: &[u64], count: usize) -> Answer {
        Answer { refusal: refusal.to_vec(), numbers: vec![0; count] }
    }
}
