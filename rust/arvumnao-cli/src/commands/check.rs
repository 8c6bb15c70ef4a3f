//! `check`: only the verdict on jobs, as compilers give it.

use super::Command;
use crate::args::Args;
use crate::console::{Colour, Console};
use crate::failure::{Failure, Status};
use crate::files::Text;
use crate::table::{counted, listed, Table};
use crate::{kinds, verdict};
use arvumnao::{Block, Job, Log, Overfull, Refusal};
use std::ffi::OsStr;

pub const COMMAND: Command = Command {
    name: "check",
    summary: "say whether jobs are correct and can be routed, and what is wrong",
    usage: "JOB..",
    about: "\
Tells, on standard error, a line for each job: where it settles, or FILE:LINE: the numbers of the refusal and what
is wrong, with the line and a caret. A job whose limit was reached gets a table of its overfull nodes and what to
try; one with a sink out of reach, what can be reached. Nothing is written. With -q routed jobs get no line.",
    options: &[],
    several: true,
    run,
};

/// The most nodes or nets that a line lists.
const LISTED: usize = 16;
/// The most overfull nodes that are listed.
const ROWS: usize = 20;

fn run(args: &Args, console: &Console) -> Result<Status, Failure> {
    let mut status = Status::Routed;
    for name in &args.jobs {
        let ended = check(name, console).unwrap_or_else(|failure| {
            console.fail(&failure);
            failure.status()
        });
        status = status.max(ended);
    }
    Ok(status)
}

fn check(name: &OsStr, console: &Console) -> Result<Status, Failure> {
    let text = Text::read(name)?;
    let read = Job::read(&text.bytes);
    let routed = match &read {
        Ok(job) => job.route(),
        Err(refusal) => Err(refusal.clone()),
    };
    let refusal = match routed {
        Ok(answer) => {
            let verdict = console.paint(Colour::Green, &format!("R,{},{}", answer.iteration, answer.turns));
            let name = console.paint(Colour::Bold, &text.name);
            let (iteration, turns) = (answer.iteration, answer.turns);
            console.say(&format!("{name}: {verdict}: settles in iteration {iteration}, after {turns} turns"));
            return Ok(Status::Routed);
        }
        Err(refusal) => refusal,
    };
    console.put(&match (&refusal, &read) {
        (Refusal::Limit { .. }, Ok(job)) => unsettled(&text, job, &refusal, console),
        (Refusal::Unreachable { source, sink, .. }, Ok(job)) => {
            verdict::of_job(&text, &refusal, console) + &reach(&job.block, *source, *sink)
        }
        _ => verdict::of_job(&text, &refusal, console),
    });
    Ok(Status::of(&refusal))
}

/// A job whose limit was reached: the overfull nodes in a table, and what to try.
fn unsettled(text: &Text, job: &Job, refusal: &Refusal, console: &Console) -> String {
    let Refusal::Limit { iteration, overfull, may_rise, log, .. } = refusal else { return String::new() };
    let nodes = counted(overfull.len(), "node");
    let reason = format!("not settled by iteration {iteration}, the limit: {nodes} over capacity");
    let head = verdict::told(&text.name, &verdict::x_line(refusal), &reason, console);
    head + &crowded(job, overfull, log) + &hopeless(job, overfull) + &to_try(job, *may_rise)
}

/// What a source leads to, and what leads to a sink.
fn reach(block: &Block, source: u16, sink: u16) -> String {
    let edges = || {
        let rows = block.first_edge.windows(2).enumerate();
        rows.flat_map(|(from, row)| {
            block.edge_target[row[0] as usize..row[1] as usize].iter().map(move |to| (from as u16, *to))
        })
    };
    let there = reached(block.kind.len(), source, &edges().collect::<Vec<_>>());
    let back = reached(block.kind.len(), sink, &edges().map(|(from, to)| (to, from)).collect::<Vec<_>>());
    let told = |nodes: &[u16]| if nodes.is_empty() { String::from("none") } else { listed(nodes, LISTED) };
    format!(
        "  nodes that can be reached from node {source}: {}\n  nodes from which sink {sink} can be reached: {}\n",
        told(&there),
        told(&back)
    )
}

/// The nodes that can be reached from a node over edges, in order, without the node itself.
fn reached(nodes: usize, start: u16, edges: &[(u16, u16)]) -> Vec<u16> {
    let mut targets = vec![Vec::new(); nodes];
    for (from, to) in edges {
        targets[usize::from(*from)].push(*to);
    }
    let mut seen = vec![false; nodes];
    seen[usize::from(start)] = true;
    let mut waiting = vec![start];
    while let Some(node) = waiting.pop() {
        for to in &targets[usize::from(node)] {
            if !std::mem::replace(&mut seen[usize::from(*to)], true) {
                waiting.push(*to);
            }
        }
    }
    (0..nodes as u16).filter(|node| seen[usize::from(*node)] && *node != start).collect()
}

/// A table of the overfull nodes, with the histories that the last iteration's prices had.
fn crowded(job: &Job, overfull: &[Overfull], log: &Log) -> String {
    let last =
        log.replay(job).and_then(|mut replay| replay.try_fold(None, |_, iteration| iteration.map(Some)));
    let history = |node: u32| match &last {
        Ok(Some(iteration)) => iteration.history[node as usize].to_string(),
        _ => String::from("?"),
    };
    let mut table = Table::new(&["  node", "kind", "use/capacity", "history", "nets"], &[1, 4]);
    for Overfull { node, capacity, nets, .. } in overfull.iter().take(ROWS) {
        let kind = kinds::name(job.block.kind[*node as usize]);
        let using = format!("{}/{capacity}", nets.len());
        table.row(vec![node.to_string(), kind, using, history(*node), listed(nets, LISTED)]);
    }
    let rest = overfull.len().saturating_sub(ROWS);
    let more = if rest > 0 { format!("  .. and {rest} nodes more\n") } else { String::new() };
    table.text() + &more
}

/// A node that is the sink of more nets than it has room for: only more capacity helps.
fn hopeless(job: &Job, overfull: &[Overfull]) -> String {
    let mut wanted = vec![0; job.block.kind.len()];
    for net in 0..job.nets.source.len() {
        job.nets.joined_sinks(net).iter().for_each(|sink| wanted[usize::from(*sink)] += 1);
    }
    let tight = |crowd: &&Overfull| wanted[crowd.node as usize] > crowd.capacity;
    let nodes: Vec<u32> = overfull.iter().filter(tight).map(|crowd| crowd.node).collect();
    match nodes.is_empty() {
        true => String::new(),
        false => format!(
            "  sinks of more nets than they have room for, which no limit or tariff helps: {}\n",
            listed(&nodes, LISTED)
        ),
    }
}

/// What may let a job settle.
fn to_try(job: &Job, may_rise: bool) -> String {
    let mut list = Vec::new();
    if may_rise {
        list.push("a higher limit (arvumnao route --limit N)");
    }
    if job.terms.rule == 2 {
        list.push("rule 1 (no V line), by which nets that nobody crowds make room too");
    }
    list.push("another tuning of the tariff (a P line)");
    list.push("more capacity for these nodes, or more wires beside them");
    format!("  to try: {}\n", list.join("; "))
}
