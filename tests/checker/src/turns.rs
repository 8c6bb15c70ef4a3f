//! The clauses about turns, checked one record after the other.

use crate::fault::Fault;
use crate::job::Job;
use crate::paths::{missing_edge, Search, View};
use crate::prices::Prices;
use crate::records::Record;
use crate::trees::Trees;

/// Checks every turn and gives the final trees. So many turns were lent: no path is looked for that costs less than theirs.
pub fn walk(job: &Job, records: &[Record], lent: u64) -> Result<Trees, Fault> {
    let mut trees = Trees::new(job);
    let mut prices = Prices::new(job);
    let mut search = Search::new(job.nodes());
    for (turn, record) in (0..).zip(records) {
        move_on(job, turn, record, &trees, &mut prices)?;
        let net = net(job, turn, record)?;
        let path = path(job, turn, record)?;
        trees.begin(net, record.iteration);
        let view = View::new(job, &trees, &prices, net);
        follows(&view, turn, &path)?;
        joins(&view, turn, record.sink, &path)?;
        costs(&view, turn, record.cost, &path)?;
        if turn >= lent {
            cheapest(&view, turn, record.cost, &mut search)?;
        }
        trees.add(net, &path);
    }
    Ok(trees)
}

/// Prices move on with the record's iteration. The first is 1; each next one
/// is the same or one more, for every iteration of a sound job has records:
/// under rule 2 those of the nets that have a node which was overfull.
fn move_on(job: &Job, turn: u64, record: &Record, trees: &Trees, prices: &mut Prices) -> Result<(), Fault> {
    let iteration = record.iteration;
    if iteration == prices.iteration {
        return Ok(());
    }
    if turn == 0 || iteration != prices.iteration + 1 || iteration > job.limit {
        return Err(Fault::Iteration { turn, iteration });
    }
    prices.step(job, trees);
    Ok(())
}

fn net(job: &Job, turn: u64, record: &Record) -> Result<usize, Fault> {
    let net = below(record.net, job.nets());
    net.ok_or(Fault::UnknownNet { turn, net: record.net })
}

/// The path's nodes, each a node of the job.
fn path(job: &Job, turn: u64, record: &Record) -> Result<Vec<usize>, Fault> {
    let node = |&node: &u32| below(node, job.nodes()).ok_or(Fault::UnknownNode { turn, node });
    record.path.iter().map(node).collect()
}

fn below(number: u32, count: usize) -> Option<usize> {
    usize::try_from(number).ok().filter(|&number| number < count)
}

/// The path follows edges from a node of the net's tree.
fn follows(view: &View, turn: u64, path: &[usize]) -> Result<(), Fault> {
    let &start = path.first().ok_or(Fault::EmptyPath { turn })?;
    if !view.in_tree(start) {
        return Err(Fault::StartOutsideTree { turn, node: start });
    }
    match missing_edge(view.job, path) {
        Some((from, to)) => Err(Fault::NoEdge { turn, from, to }),
        None => Ok(()),
    }
}

/// The path ends in the record's sink, one of the net's not yet joined, in a timed job the one whose turn it is.
fn joins(view: &View, turn: u64, sink: u32, path: &[usize]) -> Result<(), Fault> {
    let &end = path.last().ok_or(Fault::EmptyPath { turn })?;
    if u32::try_from(end) != Ok(sink) {
        return Err(Fault::EndNotSink { turn, end, sink });
    }
    if !view.job.has_sink(view.net, end) {
        return Err(Fault::NotSinkOfNet { turn, sink: end });
    }
    if view.in_tree(end) {
        return Err(Fault::SinkJoined { turn, sink: end });
    }
    match &view.aim {
        Some(aim) if aim.sink != end => Err(Fault::OtherTurn { turn, sink: end, due: aim.sink }),
        _ => Ok(()),
    }
}

/// The logged cost is the path's.
fn costs(view: &View, turn: u64, logged: u64, path: &[usize]) -> Result<(), Fault> {
    let cost = view.cost(path);
    if cost != u128::from(logged) {
        return Err(Fault::Cost { turn, logged, path: cost });
    }
    Ok(())
}

/// No path costs less.
fn cheapest(view: &View, turn: u64, logged: u64, search: &mut Search) -> Result<(), Fault> {
    match search.least(view) {
        Some(least) if least < logged => Err(Fault::CheaperPath { turn, logged, least }),
        _ => Ok(()),
    }
}
