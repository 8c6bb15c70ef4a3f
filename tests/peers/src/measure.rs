//! A job through every router, in turn and over again: the best time of each, and what it came to.

use crate::cases::Case;
use crate::chip::Chip;
use crate::legal;
use crate::nextpnr::{self, Bench, Router, Setting, SETTINGS};
use crate::ours::{self, Lent, Way, WAYS};
use job::Job;
use std::path::Path;
use std::time::Duration;

/// How often all routers have their turn.
const ROUNDS: usize = 3;
/// Routings a round: of the library at least so many, and on while they take less than SHORT in all; of nextpnr so many in one process.
const LEAST: usize = 2;
const SHORT: Duration = Duration::from_millis(30);
const PEER_TIMES: usize = 2;

/// What a router came to.
#[derive(Clone, Copy, Debug)]
pub struct Entry {
    /// The best time.
    pub time: Duration,
    pub settled: bool,
    pub iterations: u64,
    /// Searches: turns of the library, arcs of router1.
    pub turns: u64,
    /// The base costs of the trees' nodes; of nextpnr, whose runs differ, the mean.
    pub cost: u64,
}

/// A job's entries, in the order of WAYS, tuned::WAYS and SETTINGS. A router of nextpnr that was given up has none.
pub struct Row {
    pub case: Case,
    pub job: Job,
    pub ours: Vec<Entry>,
    pub unproved: Vec<Entry>,
    pub peers: Vec<Option<Entry>>,
}

impl Row {
    pub fn ours(&self, rule: u32, aimed: bool) -> &Entry {
        let place = WAYS.iter().position(|way| *way == Way { rule, aimed });
        &self.ours[place.expect("one of WAYS")]
    }

    pub fn peer(&self, router: Router, eager: bool) -> Option<&Entry> {
        let place = SETTINGS.iter().position(|setting| *setting == Setting { router, eager });
        self.peers[place.expect("one of SETTINGS")].as_ref()
    }
}

/// A round of one of our routers. Every run of a rule must leave the same log, and what has settled must be legal.
fn our_round(
    job: &Job,
    route: impl Fn(&mut Lent) -> ours::Run,
    lent: &mut Lent,
    hash: &mut Option<u64>,
) -> Entry {
    let mut run = route(lent);
    let (mut best, mut spent, mut runs) = (run.time, run.time, 1);
    while runs < LEAST || spent < SHORT {
        run = route(lent);
        best = best.min(run.time);
        spent += run.time;
        runs += 1;
    }
    let log = ours::log_hash(&run, lent);
    assert_eq!(*hash.get_or_insert(log), log, "another log");
    let cost = legal::cost(job, &ours::branches(job, &run, lent));
    assert_eq!(cost.is_ok(), run.settled, "{cost:?}");
    Entry {
        time: best,
        settled: run.settled,
        iterations: run.iterations,
        turns: run.turns,
        cost: cost.unwrap_or(0),
    }
}

/// Keeps the better time.
fn keep(entry: &mut Option<Entry>, new: Entry) {
    let time = entry.map_or(new.time, |old| old.time.min(new.time));
    *entry = Some(Entry { time, ..new });
}

/// All runs of a setting so far.
fn peer_round(bench: &Bench, setting: Setting, runs: &mut Vec<nextpnr::Run>) -> std::io::Result<()> {
    runs.extend(bench.route(setting, PEER_TIMES)?);
    Ok(())
}

/// What a setting's runs come to; nothing where one was given up. A call that finds nothing left to route takes the time `idle`, for checks
/// and reports after the routing, which don't count.
fn peer_entry(job: &Job, setting: Setting, runs: &[nextpnr::Run], idle: Duration) -> Option<Entry> {
    if runs.len() < ROUNDS * PEER_TIMES || runs.iter().any(|run| !run.settled) {
        return None;
    }
    let costs = runs.iter().map(|run| match legal::cost(job, &run.branches) {
        Ok(cost) => cost,
        Err(fault) => panic!("{setting:?} gives what is not legal: {fault}"),
    });
    let cost = costs.sum::<u64>() / runs.len() as u64;
    let time = runs.iter().map(|run| run.time).min()?.saturating_sub(idle);
    let steps = runs[0].steps;
    let (iterations, turns) = if setting.router == Router::Two { (steps, 0) } else { (0, steps) };
    Some(Entry { time, settled: true, iterations, turns, cost })
}

/// The least time of a call of router1 that finds nothing left to route: router2 ends with such a call too.
fn idle(all: &[Vec<nextpnr::Run>]) -> Duration {
    let ones = SETTINGS.iter().zip(all).filter(|(setting, _)| setting.router == Router::One);
    ones.flat_map(|(_, runs)| runs).map(|run| run.again).min().unwrap_or_default()
}

/// Routes a case with all routers.
pub fn measure(chip: &Chip, case: Case, lent: &mut Lent, folder: &Path) -> std::io::Result<Row> {
    let window = case.window(chip);
    let job = case.job(&window);
    let bench = Bench::new(folder, &window, &job)?;
    let mut hashes = [None; 2];
    let mut ours: Vec<Option<Entry>> = vec![None; WAYS.len()];
    let mut unproved: Vec<Option<Entry>> = vec![None; tuned::WAYS.len()];
    let mut runs: Vec<Vec<nextpnr::Run>> = SETTINGS.iter().map(|_| Vec::new()).collect();
    for _ in 0..ROUNDS {
        for (way, entry) in WAYS.into_iter().zip(&mut ours) {
            let hash = &mut hashes[way.rule as usize - 1];
            keep(entry, our_round(&job, |lent| ours::route(&job, way, lent), lent, hash));
        }
        for (way, entry) in tuned::WAYS.into_iter().zip(&mut unproved) {
            keep(entry, our_round(&job, |lent| ours::route_unproved(&job, way, lent), lent, &mut hashes[0]));
        }
        for (setting, runs) in SETTINGS.iter().zip(&mut runs) {
            peer_round(&bench, *setting, runs)?;
        }
    }
    let idle = idle(&runs);
    let peers =
        SETTINGS.iter().zip(&runs).map(|(setting, runs)| peer_entry(&job, *setting, runs, idle)).collect();
    let [ours, unproved] = [ours, unproved].map(|list| list.into_iter().flatten().collect());
    Ok(Row { case, job, ours, unproved, peers })
}
