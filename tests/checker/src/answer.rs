//! The clauses about the outcome and its numbers.

use crate::fault::Fault;
use crate::job::Job;
use crate::paths::{first_unreachable, reachable};
use crate::records::{Record, HEAD};
use crate::trees::Trees;

/// What the call gave back, beside the log. `room` counts the log's words
/// past the words used.
pub struct Answer<'a> {
    pub refusal: &'a [u64],
    pub iteration: u64,
    pub turns: u64,
    pub words: u64,
    pub room: u64,
}

/// With sound tables and enough work memory only 7, 8 and 9 can refuse.
pub fn check(job: &Job, records: &[Record], trees: &Trees, answer: &Answer) -> Result<(), Fault> {
    let last = records.last().map_or(0, |record| u64::from(record.iteration));
    match *answer.refusal {
        [] => accepted(job, trees, answer, last),
        [7, net, place] => unreachable(job, answer, net, place),
        [8, iteration, turns] => log_full(job, answer, last, iteration, turns),
        [9, iteration, over] => limit(job, trees, answer, last, iteration, over),
        _ => Err(Fault::UnknownRefusal { numbers: answer.refusal.to_vec() }),
    }
}

fn accepted(job: &Job, trees: &Trees, answer: &Answer, last: u64) -> Result<(), Fault> {
    for net in 0..job.nets() {
        misses_none(job, trees, net)?;
        if let Some(node) = trees.reached_twice(job, net) {
            return Err(Fault::ReachedTwice { net, node });
        }
    }
    none_over(job, trees)?;
    reported_iteration(answer, last)
}

fn misses_none(job: &Job, trees: &Trees, net: usize) -> Result<(), Fault> {
    let mut sinks = job.sinks(net).iter().map(|&sink| usize::from(sink));
    match sinks.find(|&sink| !trees.has(net, sink)) {
        Some(sink) => Err(Fault::MissedSink { net, sink }),
        None => Ok(()),
    }
}

fn none_over(job: &Job, trees: &Trees) -> Result<(), Fault> {
    match (0..job.nodes()).find(|&node| trees.over(job, node) > 0) {
        Some(node) => {
            let (load, capacity) = (trees.users(node), job.capacity[node]);
            Err(Fault::Overfull { node, load, capacity })
        }
        None => Ok(()),
    }
}

fn reported_iteration(answer: &Answer, last: u64) -> Result<(), Fault> {
    if answer.iteration == last {
        return Ok(());
    }
    Err(Fault::ReportedIteration { reported: answer.iteration, logged: last })
}

/// 7: the sink named has no path from its source and is the first such one;
/// the three numbers are 0.
fn unreachable(job: &Job, answer: &Answer, net: u64, place: u64) -> Result<(), Fault> {
    let &Answer { iteration, turns, words, .. } = answer;
    let Some((first_net, first_place)) = first_unreachable(job) else {
        return Err(Fault::EverySinkReachable { net, place });
    };
    match has_path(job, net, place) {
        None => return Err(Fault::NoSuchSink { net, place }),
        Some(true) => return Err(Fault::NamedSinkReachable { net, place }),
        Some(false) => {}
    }
    if (net, place) != (first_net as u64, first_place as u64) {
        return Err(Fault::NotFirstUnreachable { net, place, first_net, first_place });
    }
    if (iteration, turns, words) != (0, 0, 0) {
        return Err(Fault::NotZero { iteration, turns, words });
    }
    Ok(())
}

/// Whether the sink at the net's place has a path; none if there is no such
/// sink.
fn has_path(job: &Job, net: u64, place: u64) -> Option<bool> {
    let net = usize::try_from(net).ok().filter(|&net| net < job.nets())?;
    let &sink = job.sinks(net).get(usize::try_from(place).ok()?)?;
    Some(reachable(job, job.source_of(net))[usize::from(sink)])
}

/// 8: its numbers are those reported, of the last record's iteration or the
/// next. A path has at most as many nodes as the graph, so a log with room for
/// that isn't full.
fn log_full(job: &Job, answer: &Answer, last: u64, iteration: u64, turns: u64) -> Result<(), Fault> {
    every_sink_has_path(job)?;
    number(8, 1, iteration, answer.iteration)?;
    number(8, 2, turns, answer.turns)?;
    let next = (last + 1).min(u64::from(job.limit));
    if iteration == 0 || (iteration != last && iteration != next) {
        return Err(Fault::ReportedIteration { reported: iteration, logged: last });
    }
    if answer.room >= (HEAD + job.nodes()) as u64 {
        return Err(Fault::LogNotFull { room: answer.room });
    }
    Ok(())
}

/// 9: its numbers are the reported iteration, which is the last record's and
/// the limit, and the count of nodes that the final trees overfill.
fn limit(
    job: &Job,
    trees: &Trees,
    answer: &Answer,
    last: u64,
    iteration: u64,
    over: u64,
) -> Result<(), Fault> {
    every_sink_has_path(job)?;
    number(9, 1, iteration, answer.iteration)?;
    reported_iteration(answer, last)?;
    if iteration != u64::from(job.limit) {
        return Err(Fault::LimitNotReached { iteration, limit: job.limit });
    }
    let due = (0..job.nodes()).filter(|&node| trees.over(job, node) > 0).count();
    if due == 0 {
        return Err(Fault::NothingOver);
    }
    number(9, 2, over, due as u64)
}

fn number(number: u64, place: usize, given: u64, due: u64) -> Result<(), Fault> {
    if given == due {
        return Ok(());
    }
    Err(Fault::RefusalNumber { number, place, given, due })
}

/// A job that got past 7 has a path to every sink.
fn every_sink_has_path(job: &Job) -> Result<(), Fault> {
    match first_unreachable(job) {
        Some((net, place)) => Err(Fault::NotRefused { net, place }),
        None => Ok(()),
    }
}
