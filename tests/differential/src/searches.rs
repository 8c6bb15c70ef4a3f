//! Logs of routers that search otherwise than the proved one: one keeps path prices from a net's earlier sinks, which is the trap of document 003,
//! so that its paths are legal and some of them dear; one breaks ties at random.

use crate::compare::checked;
use crate::wander::due;
use checker::joined::Joined;
use checker::paths::View;
use checker::prices::Prices;
use checker::trees::Trees;
use job::{Job, Rng};

/// What a router does otherwise.
#[derive(Clone, Copy, PartialEq)]
pub enum Way {
    /// A node of the tree keeps the price of the path that joined it, where it should cost nothing to begin there.
    Stale,
    /// Of cheapest sinks, and of the ways to one, any is taken.
    Ties,
}

/// The log of so many iterations at most; it ends with one that settles. A sink without a path is left out.
pub fn log(rng: &mut Rng, job: &Job, most: u32, way: Way) -> Vec<u32> {
    let listed = checked(job);
    let joined = Joined::new(&listed);
    let tables = joined.job(&listed);
    let mut trees = Trees::new(&tables);
    let mut prices = Prices::new(&tables);
    let mut log = Vec::new();
    loop {
        for net in due(job, &tables, &trees, prices.iteration) {
            trees.begin(net, prices.iteration);
            let mut kept = vec![0; tables.nodes()];
            while let Some(path) =
                turn(rng, &View::new(&tables, &trees, &prices, net), way, &mut kept, &mut log)
            {
                trees.add(net, &path);
            }
        }
        let settled = (0..tables.nodes()).all(|node| trees.over(&tables, node) == 0);
        if settled || prices.iteration >= most {
            return log;
        }
        prices.step(&tables, &trees);
    }
}

/// Adds a turn's record to the log; its path, or none where no sink is left to be joined.
fn turn(rng: &mut Rng, view: &View, way: Way, kept: &mut [u64], log: &mut Vec<u32>) -> Option<Vec<usize>> {
    let label = labels(view, if way == Way::Stale { Some(kept) } else { None });
    let goals = goals(view).filter(|&sink| label[sink] < u64::MAX);
    let nearest: Vec<usize> = goals.collect();
    let least = nearest.iter().map(|&sink| label[sink]).min()?;
    let nearest: Vec<usize> = nearest.into_iter().filter(|&sink| label[sink] == least).collect();
    let sink = if way == Way::Ties { rng.pick(&nearest) } else { nearest[0] };
    let path = path(rng, view, way, &label, sink);
    for two in path.windows(2) {
        kept[two[1]] = kept[two[0]] + view.price(two[1]);
    }
    let cost = view.cost(&path) as u64;
    log.extend([view.prices.iteration, view.net as u32, sink as u32, cost as u32, (cost >> 32) as u32]);
    log.push(path.len() as u32);
    log.extend(path.iter().map(|&node| node as u32));
    Some(path)
}

/// The sinks that a turn may join.
fn goals<'a>(view: &'a View) -> impl Iterator<Item = usize> + 'a {
    let other = |sink: usize| view.aim.as_ref().is_some_and(|aim| aim.sink != sink);
    let sinks = view.job.sinks(view.net).iter().map(|&sink| usize::from(sink));
    sinks.filter(move |&sink| !view.in_tree(sink) && !other(sink))
}

/// The nodes of the net's tree: its source too, before the first turn.
fn begins(view: &View, node: usize) -> bool {
    view.in_tree(node) || node == view.job.source_of(view.net)
}

/// Each node's least sum of prices from the tree, whose nodes begin with 0, or with what they kept.
fn labels(view: &View, kept: Option<&[u64]>) -> Vec<u64> {
    let mut label: Vec<u64> = (0..view.job.nodes())
        .map(|node| if begins(view, node) { kept.map_or(0, |kept| kept[node]) } else { u64::MAX })
        .collect();
    loop {
        let mut changed = false;
        for node in (0..view.job.nodes()).filter(|&node| label[node] < u64::MAX).collect::<Vec<_>>() {
            for &to in view.job.targets(node) {
                let to = usize::from(to);
                let sum = label[node].saturating_add(view.price(to));
                if !begins(view, to) && sum < label[to] {
                    label[to] = sum;
                    changed = true;
                }
            }
        }
        if !changed {
            return label;
        }
    }
}

/// A path of that sum to a sink, read backwards.
fn path(rng: &mut Rng, view: &View, way: Way, label: &[u64], sink: usize) -> Vec<usize> {
    let mut path = vec![sink];
    while let Some(&node) = path.last().filter(|&&node| !begins(view, node)) {
        let steps = |from: usize| view.job.targets(from).contains(&(node as u16));
        let before: Vec<usize> = (0..view.job.nodes())
            .filter(|&from| {
                label[from] < u64::MAX && steps(from) && label[from] + view.price(node) == label[node]
            })
            .collect();
        path.push(if way == Way::Ties { rng.pick(&before) } else { before[0] });
    }
    path.reverse();
    path
}
