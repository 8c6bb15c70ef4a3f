//! Why the router refused a table: its first entry that breaks the rule.

use crate::job::{Job, EDGES, NETS, NODES, SINKS};
use crate::kind;

/// The name and the rule of each table.
pub(crate) const NAMES_AND_RULES: [(&str, &str); 10] = [
    ("kind", "1 to 4,096 nodes, each of kind 0 to 53"),
    ("capacity", "an entry for each node, 1 to 255"),
    ("first_edge", "nodes + 1 entries: begins with 0, never falls, ends with the length of edge_target"),
    ("edge_target", "at most 32,768 nodes, rising within each node's row, never the node itself"),
    ("source", "1 to 512 nets, each with a node of kind 0 or 2"),
    ("first_sink", "nets + 1 entries: begins with 0, rises, ends with the length of sink"),
    ("sink", "at most 4,096 nodes of kind 1 or 3, within a net none twice and none its source"),
    ("terms", "limit 1 to 100, first 0 to 1,000, down 1 to 4, up from down to 8, step 1 or 2, rule 1 or 2, until 1 to 99"),
    ("delay", "an entry for each node, 0 to 1,000"),
    ("criticality", "an entry for each entry of sink, 0 to 9"),
];

/// The first entry of a table that breaks its rule, if the tables below keep theirs.
pub(crate) fn reason(job: &Job, table: u32) -> Option<String> {
    let Job { block, nets, .. } = job;
    match table {
        1 => length(block.kind.len(), 1, NODES).or_else(|| {
            entry(&block.kind, |_, kind| {
                (kind > kind::MOST).then(|| format!("kind {kind} is beyond 0 to 53"))
            })
        }),
        2 => length(block.capacity.len(), block.kind.len(), block.kind.len()).or_else(|| {
            entry(&block.capacity, |_, capacity| {
                (capacity == 0).then(|| String::from("capacity 0 is beyond 1 to 255"))
            })
        }),
        3 => places(&block.first_edge, block.kind.len(), block.edge_target.len(), 0),
        4 => length(block.edge_target.len(), 0, EDGES).or_else(|| targets(job)),
        5 => length(nets.source.len(), 1, NETS).or_else(|| {
            entry(&nets.source, |_, node| pin(job, node, kind::may_be_source, "source", "0 or 2"))
        }),
        6 => places(&nets.first_sink, nets.source.len(), nets.sink.len(), 1),
        7 => length(nets.sink.len(), 0, SINKS).or_else(|| sinks(job)),
        8 => terms(job),
        9 => bounded(&job.timing.as_ref()?.delay, block.kind.len(), "delay", 1_000),
        10 => bounded(&job.timing.as_ref()?.criticality, nets.sink.len(), "criticality", 9),
        _ => None,
    }
}

/// The same for table 5 by the routes writer's rule.
pub(crate) fn source_reason(source: &[u16]) -> Option<String> {
    length(source.len(), 1, NETS).or_else(|| {
        entry(source, |_, node| {
            (usize::from(node) >= NODES).then(|| format!("node {node} is beyond 0 to {}", NODES - 1))
        })
    })
}

/// A table of the wrong length.
fn length(length: usize, least: usize, most: usize) -> Option<String> {
    if (least..=most).contains(&length) {
        None
    } else if least == most {
        Some(format!("has {length} entries, and should have {least}"))
    } else {
        Some(format!("has {length} entries, and may have {least} to {most}"))
    }
}

/// The first entry at fault, with its place.
fn entry<T: Copy>(table: &[T], fault: impl Fn(usize, T) -> Option<String>) -> Option<String> {
    let found = table.iter().enumerate().find_map(|(place, entry)| Some((place, fault(place, *entry)?)));
    found.map(|(place, fault)| format!("entry {place}: {fault}"))
}

/// A table of numbers from 0 to a bound, with an entry for each of its owners.
fn bounded<T: Copy + Into<u32>>(table: &[T], owners: usize, name: &str, most: u32) -> Option<String> {
    length(table.len(), owners, owners).or_else(|| {
        entry(table, |_, number| {
            let number: u32 = number.into();
            (number > most).then(|| format!("{name} {number} is beyond 0 to {most}"))
        })
    })
}

/// A table of places in another table, each at least this much above the one before.
fn places(table: &[u32], owners: usize, end: usize, rise: u64) -> Option<String> {
    length(table.len(), owners + 1, owners + 1)
        .or_else(|| {
            entry(table, |place, entry| match place.checked_sub(1) {
                None => (entry != 0).then(|| format!("{entry}, where the first is 0")),
                Some(last) if rise > 0 && entry == table[last] => {
                    Some(format!("{entry} again: net {last} has no sink"))
                }
                Some(last) => (u64::from(entry) < u64::from(table[last]) + rise)
                    .then(|| format!("{entry} comes after {}", table[last])),
            })
        })
        .or_else(|| {
            let last = *table.last()?;
            (last as usize != end)
                .then(|| format!("ends with {last}, and the table after it has {end} entries"))
        })
}

/// The rows of a table that places lead into, each with its owner; none if the places are beyond it.
fn rows<'t>(places: &'t [u32], table: &'t [u16]) -> impl Iterator<Item = (usize, &'t [u16])> {
    let ends = places.iter().zip(places.iter().skip(1)).enumerate();
    ends.filter_map(|(owner, (first, end))| Some((owner, table.get(*first as usize..*end as usize)?)))
}

fn targets(job: &Job) -> Option<String> {
    let nodes = job.block.kind.len();
    rows(&job.block.first_edge, &job.block.edge_target).find_map(|(from, row)| {
        let fault = entry(row, |place, to| {
            if to as usize >= nodes {
                Some(format!("{to} is not a node of {nodes}"))
            } else if to as usize == from {
                Some(String::from("an edge to the node itself"))
            } else {
                let last = row[place.checked_sub(1)?];
                (last >= to).then(|| format!("{to} comes after {last}"))
            }
        })?;
        Some(format!("row of node {from}, {fault}"))
    })
}

/// A number that is no node, or a node of a kind that is not allowed there.
fn pin(job: &Job, node: u16, serves: impl Fn(u8) -> bool, role: &str, kinds: &str) -> Option<String> {
    match job.block.kind.get(node as usize) {
        None => Some(format!("{node} is not a node of {}", job.block.kind.len())),
        Some(kind) if serves(*kind) => None,
        Some(kind) => {
            let name = kind::name(*kind);
            Some(format!("node {node} is {name}, of kind {kind}; a {role} must be of kind {kinds}"))
        }
    }
}

fn sinks(job: &Job) -> Option<String> {
    rows(&job.nets.first_sink, &job.nets.sink).find_map(|(net, row)| {
        let source = job.nets.source.get(net)?;
        let fault = entry(row, |place, node| {
            if node == *source {
                Some(format!("node {node} is the net's own source"))
            } else if row[..place].contains(&node) {
                Some(format!("node {node} is a sink of this net already"))
            } else {
                pin(job, node, kind::may_be_sink, "sink", "1 or 3")
            }
        })?;
        Some(format!("sinks of net {net}, {fault}"))
    })
}

fn terms(job: &Job) -> Option<String> {
    let terms = job.terms;
    let bounds = [
        ("limit", terms.limit, 1..=100),
        ("first", terms.first, 0..=1_000),
        ("down", terms.down, 1..=4),
        ("up", terms.up, terms.down..=8),
        ("step", terms.step, 1..=2),
        ("rule", terms.rule, 1..=2),
        ("until", terms.until, 1..=99),
    ];
    let (name, value, bounds) = bounds.into_iter().find(|(_, value, bounds)| !bounds.contains(value))?;
    Some(format!("{name} {value} is beyond {} to {}", bounds.start(), bounds.end()))
}
