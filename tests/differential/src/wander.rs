//! Logs that follow a job though no router made them: paths at random, at the prices that the job has for them.

use crate::compare::checked;
use checker::joined::Joined;
use checker::paths::{Aim, View};
use checker::prices::Prices;
use checker::trees::Trees;
use job::{Job, Rng};

/// How a path at random breaks a clause of what a log must follow, and no other: its edges and its cost are right.
#[derive(Clone, Copy, PartialEq)]
pub enum Stray {
    /// It passes an unjoined sink on its way to another, which a timed job allows.
    Sink,
    /// It joins a sink of a timed job whose turn it isn't, at the prices for this sink or for the one whose turn it is.
    Turn { own_prices: bool },
    /// It may pass nodes of the tree after its first.
    Tree,
    /// It may begin outside the tree.
    Outside,
}

/// A log of whole iterations, at most so many; it ends with one that settles. A sink without a path is left out. Some of its paths stray, where
/// that is asked.
pub fn log(rng: &mut Rng, job: &Job, most: u32, stray: Option<Stray>) -> Vec<u32> {
    let listed = checked(job);
    let joined = Joined::new(&listed);
    let tables = joined.job(&listed);
    let mut trees = Trees::new(&tables);
    let mut prices = Prices::new(&tables);
    let mut log = Vec::new();
    loop {
        for net in due(job, &tables, &trees, prices.iteration) {
            trees.begin(net, prices.iteration);
            while let Some(path) = turn(rng, &View::new(&tables, &trees, &prices, net), stray, &mut log) {
                trees.add(net, &path);
            }
        }
        let settled = (0..tables.nodes()).all(|node| trees.over(&tables, node) == 0);
        if settled || prices.iteration >= most {
            return log;
        }
        prices.step(&tables, &trees);
    }
}

/// The nets that make turns in an iteration.
pub fn due(job: &Job, tables: &checker::Job, trees: &Trees, iteration: u32) -> Vec<usize> {
    let all = job.rule == 1 || iteration <= job.until;
    let crowded = |net: usize| trees.members(net).iter().any(|&node| trees.over(tables, node) > 0);
    (0..tables.nets()).filter(|&net| !tables.sinks(net).is_empty() && (all || crowded(net))).collect()
}

/// Adds a turn's record to the log; its path, or none where no sink is left to be joined.
fn turn(rng: &mut Rng, view: &View, stray: Option<Stray>, log: &mut Vec<u32>) -> Option<Vec<usize>> {
    let astray = stray.filter(|_| rng.percent(40)).and_then(|stray| path(rng, view, Some(stray)));
    let own_prices = astray.is_some() && stray == Some(Stray::Turn { own_prices: true });
    let path = astray.or_else(|| path(rng, view, None))?;
    let sink = path[path.len() - 1];
    let cost = if own_prices { aimed(view, sink).cost(&path) } else { view.cost(&path) } as u64;
    log.extend([view.prices.iteration, view.net as u32, sink as u32, cost as u32, (cost >> 32) as u32]);
    log.push(path.len() as u32);
    log.extend(path.iter().map(|&node| node as u32));
    Some(path)
}

/// The same turn as if it were that of another sink.
fn aimed<'a>(view: &View<'a>, sink: usize) -> View<'a> {
    let timing = view.job.timing.expect("a timed job's turn");
    let mut places = view.job.sink_places(view.net);
    let place = places.find(|&place| usize::from(view.job.sink[place]) == sink).expect("a sink of the net");
    let aim = Aim { sink, criticality: timing.criticality[place], delay: timing.delay };
    View { aim: Some(aim), ..*view }
}

/// Whether a path may end in a node: an unjoined sink, and in a timed job the one whose turn it is, or any other where it strays so.
fn ends(view: &View, stray: Option<Stray>, node: usize) -> bool {
    let due = view.aim.as_ref().is_none_or(|aim| aim.sink == node);
    let turn = !matches!(stray, Some(Stray::Turn { .. }));
    view.job.has_sink(view.net, node) && !view.in_tree(node) && due == turn
}

/// Where a path may begin. It comes to none of these again.
fn starts(rng: &mut Rng, view: &View, stray: Option<Stray>) -> Vec<usize> {
    let source = view.job.source_of(view.net);
    match stray {
        Some(Stray::Outside) => vec![rng.below(view.job.nodes())],
        Some(Stray::Tree) => vec![source],
        _ => [&[source], view.trees.members(view.net)].concat(),
    }
}

/// A path to a sink that it may end in, the first that is met by following edges at random, or the second where it passes the first.
fn path(rng: &mut Rng, view: &View, stray: Option<Stray>) -> Option<Vec<usize>> {
    let mut before = vec![None; view.job.nodes()];
    let steps = |node: usize| view.job.targets(node).iter().map(move |&to| (node, usize::from(to)));
    let starts = starts(rng, view, stray);
    let mut open: Vec<(usize, usize)> = starts.iter().flat_map(|&node| steps(node)).collect();
    let mut passes = stray == Some(Stray::Sink);
    while !open.is_empty() {
        let (from, node) = open.swap_remove(rng.below(open.len()));
        if starts.contains(&node) || before[node].is_some() {
            continue;
        }
        before[node] = Some(from);
        if ends(view, stray, node) {
            if !passes {
                let mut path: Vec<usize> = std::iter::successors(Some(node), |&node| before[node]).collect();
                path.reverse();
                return Some(path);
            }
            passes = false;
            open.clear();
        }
        open.extend(steps(node));
    }
    None
}
