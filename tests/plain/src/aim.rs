//! How many nodes an aimed turn expands, and that turn as a call.

use crate::price::base;
use crate::search::{
    distances, lengths_are_right, marked, nearest, path, put_path, read_prices, sum, turn_refusal,
};
use crate::search::{Read, Weighting, NO_PATH};
use crate::tables::Graph;
use crate::Answer;

/// The least cost from each node to the nearest of these sinks, where a node costs so many times 100 times its base cost. The node's own
/// cost is left out, the sink's counts. Rounds over all edges until nothing changes.
fn estimates(graph: &Graph, weight: u64, sinks: &[usize]) -> Vec<u64> {
    let mut estimate = vec![NO_PATH; graph.nodes()];
    for &sink in sinks {
        estimate[sink] = 0;
    }
    while one_round(graph, weight, &mut estimate) {}
    estimate
}

/// Looks at every edge once, those from the last node first; says whether an estimate fell.
fn one_round(graph: &Graph, weight: u64, estimate: &mut [u64]) -> bool {
    let mut changed = false;
    for u in (0..graph.nodes()).rev() {
        for &target in graph.targets(u) {
            let v = target as usize;
            let through = sum(estimate[v], weight * 100 * base(graph.kind[v] as u32));
            if through < estimate[u] {
                estimate[u] = through;
                changed = true;
            }
        }
    }
    changed
}

/// How many nodes have a distance and an estimate that are together at most the joined sink's distance. The sinks are those that the turn
/// might have joined.
pub fn expanded(graph: &Graph, weight: u64, sinks: &[usize], distance: &[u64], joined: usize) -> u64 {
    let estimate = estimates(graph, weight, sinks);
    distance.iter().zip(&estimate).filter(|(&far, &left)| sum(far, left) <= distance[joined]).count() as u64
}

/// One aimed turn alone, which is lent the edges by their target too, in the form of tables 3 and 4: row v has the nodes from which an edge
/// leads to v. Where another length is wrong it refuses what `cheapest_path` refuses, where only the first table by target has not an entry
/// a node and one more, 5 with table 3. Otherwise it reads every number within its bounds, as `cheapest_path` does. An edge counts where both
/// pairs of tables have it; estimates go by the second pair alone. It leaves the path and zeros in 8 × nodes entries of the work slice. Its
/// numbers are the joined sink's place, the cost and the path's length, or none of these if no unjoined sink has a path, and then how many
/// nodes it expanded: none if it is refused.
pub fn aimed_path(
    kind: &[u8],
    capacity: &[u8],
    first_edge: &[u32],
    edge_target: &[u16],
    first_back: &[u32],
    back_source: &[u16],
    weighting: Weighting,
    delay: &[u16],
    factor: u32,
    work: &mut [u64],
    history: &[u32],
    others: &[u16],
    in_tree: &[u8],
    sinks: &[u16],
) -> Answer {
    let lent = Graph { kind, capacity, first_edge, edge_target };
    let nodes = lent.nodes();
    if !lengths_are_right(&lent, weighting, delay, work, history, others, in_tree, sinks) {
        let refusal = turn_refusal(&lent, weighting, delay, factor, work, history, others, in_tree, sinks);
        return Answer::refused(&refusal.expect("a wrong length is refused"), 1);
    }
    if first_back.len() != nodes + 1 {
        return Answer::refused(&[5, 3], 1);
    }
    let by_source = Read::new(&lent);
    let by_target = Read::new(&Graph { first_edge: first_back, edge_target: back_source, ..lent });
    let leads_back = |u: usize, v: usize| by_target.graph().has_edge(v, u);
    let agreed = by_source.with_edges(|u, v| by_source.graph().has_edge(u, v) && leads_back(u, v));
    let graph = agreed.graph();
    let prices = read_prices(&graph, weighting, delay, factor, history, others);
    let tree = marked(nodes, in_tree);
    let distance = distances(&graph, &prices, &tree);
    work[..8 * nodes].fill(0);
    let Some((place, sink)) = nearest(sinks, &tree, &distance) else {
        return Answer::good(&[0]);
    };
    let path = path(&graph, &prices, &distance, &tree, sink);
    put_path(&path, work);
    let open = sinks.iter().map(|&s| s as usize).filter(|s| *s < nodes && !tree.contains(s));
    let ahead = by_source.with_edges(leads_back);
    let count = expanded(
        &ahead.graph(),
        weighting.read().estimate_weight(),
        &open.collect::<Vec<_>>(),
        &distance,
        sink,
    );
    Answer::good(&[place as u64, distance[sink], path.len() as u64, count])
}
