//! The routers under one form.

use job::Job;
use tuned::Way;

/// What a router must give alike: refusal, then iteration, turns, words.
#[derive(Clone, PartialEq, Debug)]
pub struct Result {
    pub refusal: Vec<u64>,
    pub numbers: Vec<u64>,
}

pub type Run = fn(&Job, &mut [u64], &mut [u32]) -> Result;

#[derive(Clone, Copy, PartialEq, Debug)]
pub enum Router {
    Proved,
    /// The proved one with its aimed search.
    Aimed,
    /// The proved audit of the log, which routes nothing.
    Audit,
    Heap,
    Pruned,
    Carried,
    Plain,
}

impl Router {
    pub fn run(self) -> Run {
        match self {
            Router::Proved => proved,
            Router::Aimed => |job, work, log| aimed(job, work, log).0,
            Router::Audit => audit,
            Router::Heap => |job, _, log| tuned_answer(Way::Heap, job, log),
            Router::Pruned => |job, _, log| tuned_answer(Way::Pruned, job, log),
            Router::Carried => |job, _, log| tuned_answer(Way::Carried, job, log),
            Router::Plain => plain,
        }
    }
}

pub const HAS_PROVED: bool = cfg!(all(feature = "proved", not(feature = "no-proved")));

/// All that this build has, in the table's order.
pub fn all() -> Vec<Router> {
    let mut routers = vec![Router::Heap, Router::Pruned, Router::Carried, Router::Plain];
    if HAS_PROVED {
        routers.splice(..0, [Router::Proved, Router::Aimed, Router::Audit]);
    }
    routers
}

/// A call of a router with a job's tables and terms.
macro_rules! call {
    ($call:path, $job:expr, $work:expr, $log:expr $(, $out:expr)?) => {
        $call(
            &$job.kind,
            &$job.capacity,
            &$job.first_edge,
            &$job.edge_target,
            &$job.source,
            &$job.first_sink,
            &$job.sink,
            &$job.delay,
            &$job.criticality,
            &$job.terms(),
            $work,
            $log,
            $($out)?
        )
    };
}

#[cfg(all(feature = "proved", not(feature = "no-proved")))]
fn proved(job: &Job, work: &mut [u64], log: &mut [u32]) -> Result {
    let mut out = [0; arvumnao::raw::OUT];
    call!(arvumnao::raw::route, job, work, log, &mut out);
    let numbers: &[u64; 3] = arvumnao::raw::own(&out);
    Result { refusal: arvumnao::raw::refusal(&out).to_vec(), numbers: numbers.to_vec() }
}

/// The aimed call's result, and the nodes that it expands.
#[cfg(all(feature = "proved", not(feature = "no-proved")))]
pub fn aimed(job: &Job, work: &mut [u64], log: &mut [u32]) -> (Result, u64) {
    let mut out = [0; arvumnao::raw::OUT];
    call!(arvumnao::raw::route_aimed, job, work, log, &mut out);
    let &[ref numbers @ .., expanded]: &[u64; 4] = arvumnao::raw::own(&out);
    let refusal = arvumnao::raw::refusal(&out).to_vec();
    (Result { refusal, numbers: numbers.to_vec() }, expanded)
}

#[cfg(not(all(feature = "proved", not(feature = "no-proved"))))]
pub fn aimed(_: &Job, _: &mut [u64], _: &mut [u32]) -> (Result, u64) {
    unreachable!("built without the proved router")
}

#[cfg(not(all(feature = "proved", not(feature = "no-proved"))))]
fn proved(_: &Job, _: &mut [u64], _: &mut [u32]) -> Result {
    unreachable!("built without the proved router")
}

/// Whether the log is sound, with the iterations that are whole, the turns and the words: for a log of whole iterations the result of the run
/// that made it, but for the refusal after its last.
#[cfg(all(feature = "proved", not(feature = "no-proved")))]
fn audit(job: &Job, work: &mut [u64], log: &mut [u32]) -> Result {
    let mut out = [0; arvumnao::raw::OUT];
    let words = log.len() as u64;
    arvumnao::raw::audit(
        &job.kind,
        &job.capacity,
        &job.first_edge,
        &job.edge_target,
        &job.source,
        &job.first_sink,
        &job.sink,
        &job.delay,
        &job.criticality,
        &job.terms(),
        words,
        work,
        log,
        &mut out,
    );
    let &[turns, whole, ..]: &[u64; 4] = arvumnao::raw::own(&out);
    Result { refusal: arvumnao::raw::refusal(&out).to_vec(), numbers: vec![whole, turns, words] }
}

#[cfg(not(all(feature = "proved", not(feature = "no-proved"))))]
fn audit(_: &Job, _: &mut [u64], _: &mut [u32]) -> Result {
    unreachable!("built without the proved router")
}

/// The nodes that an aimed search expands, counted by the plain router.
pub fn plain_expanded(job: &Job, work: &mut [u64], log: &mut [u32]) -> u64 {
    call!(plain::route_aimed, job, work, log).numbers[3]
}

fn plain(job: &Job, work: &mut [u64], log: &mut [u32]) -> Result {
    let answer = call!(plain::route, job, work, log);
    Result { refusal: answer.refusal, numbers: answer.numbers }
}

fn tuned_answer(way: Way, job: &Job, log: &mut [u32]) -> Result {
    let outcome = tuned::route(
        way,
        &job.kind,
        &job.capacity,
        &job.first_edge,
        &job.edge_target,
        &job.source,
        &job.first_sink,
        &job.sink,
        job.terms(),
        log,
    );
    let numbers = vec![outcome.iteration, outcome.turns, outcome.words];
    Result { refusal: outcome.refusal, numbers }
}
