//! The use of wires over many jobs: counts of uses by kind, to which logs of one block are added, and their text.

use crate::log::{latest_paths, records, Named, Record};
use crate::price::MAX_KIND;
use crate::tables::{Graph, MAX_NETS};
use crate::writer::put;
use crate::Answer;
use std::collections::BTreeSet;

/// The kinds, each of which has a count.
pub const KINDS: usize = MAX_KIND as usize + 1;

/// The most logs that counts may be of.
const MAX_LOGS: u64 = 65_535;

/// Sums a number of each node over the nodes of each kind.
fn by_kind(kind: &[u8], number: impl Fn(usize) -> u64) -> [u64; KINDS] {
    let mut sums = [0; KINDS];
    for (node, kind) in kind.iter().enumerate() {
        sums[*kind as usize] += number(node);
    }
    sums
}

/// The uses of one log: for each node the nets whose final tree has it.
fn uses(kind: &[u8], records: &[Record]) -> [u64; KINDS] {
    let tree = |net| latest_paths(records, net).concat().into_iter().collect::<BTreeSet<u32>>();
    let trees: Vec<BTreeSet<u32>> = (0..MAX_NETS).map(tree).filter(|tree| !tree.is_empty()).collect();
    by_kind(kind, |node| trees.iter().filter(|tree| tree.contains(&(node as u32))).count() as u64)
}

/// What either call refuses at once: 5; 13 for so many logs; 13 for a kind with more uses than these logs can have.
fn stopped(graph: &Graph, counts: &[u64], logs: u64) -> Option<[u64; 2]> {
    if let Some(table) = graph.broken() {
        return Some([5, table]);
    }
    if logs > MAX_LOGS {
        return Some([13, KINDS as u64]);
    }
    let nodes = by_kind(graph.kind, |_| 1);
    let over = (0..KINDS).find(|&kind| counts[kind] > MAX_NETS as u64 * logs * nodes[kind]);
    over.map(|kind| [13, kind as u64])
}

/// Adds a log to counts, of which the first 54 entries count; with fewer it does nothing. Its number is that of the logs afterwards:
/// after a refusal, as the counts are, the one handed in.
pub fn uses_add(
    kind: &[u8],
    capacity: &[u8],
    first_edge: &[u32],
    edge_target: &[u16],
    counts: &mut [u64],
    logs: u64,
    log: &[u32],
) -> Answer {
    if counts.len() < KINDS {
        return Answer::good(&[]);
    }
    let refused = |refusal: [u64; 2]| Answer { refusal: refusal.to_vec(), numbers: vec![logs] };
    let graph = Graph { kind, capacity, first_edge, edge_target };
    if let Some(refusal) = stopped(&graph, counts, logs) {
        return refused(refusal);
    }
    let named = Named { net: |net| net < MAX_NETS, nodes: graph.nodes() };
    let records = match records(&named, log) {
        Ok(records) => records,
        Err(word) => return refused([10, word]),
    };
    if logs == MAX_LOGS {
        return refused([16, MAX_LOGS]);
    }
    counts.iter_mut().zip(uses(kind, &records)).for_each(|(count, uses)| *count += uses);
    Answer::good(&[logs + 1])
}

/// Writes a line for each kind: its uses, and its total capacity times the logs. Its number is the bytes written.
pub fn uses_write(
    kind: &[u8],
    capacity: &[u8],
    first_edge: &[u32],
    edge_target: &[u16],
    counts: &[u64],
    logs: u64,
    buffer: &mut [u8],
) -> Answer {
    if counts.len() < KINDS {
        return Answer::good(&[]);
    }
    let graph = Graph { kind, capacity, first_edge, edge_target };
    if let Some(refusal) = stopped(&graph, counts, logs) {
        return Answer::refused(&refusal, 1);
    }
    let total = by_kind(kind, |node| capacity[node] as u64);
    let line = |kind: usize| format!("U,{kind},{},{}\n", counts[kind], total[kind] * logs);
    put(&(0..KINDS).map(line).collect::<String>(), buffer)
}
