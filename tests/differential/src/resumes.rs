//! Logs to go on from: a job's own, cut or changed, those of other jobs and terms, and such as no router made.

use crate::alone::work;
use crate::compare::{self, Case};
use crate::logs;
use crate::wander::{self, Stray};
use job::{jobs, Job, Rng, TERMS};

/// A lent log: what it is, the job that goes on from it, its words and how many are told as used, and what stands past them.
#[derive(Clone)]
pub struct Lent {
    pub name: &'static str,
    pub job: Job,
    pub words: Vec<u32>,
    pub used: u64,
    past: Vec<u32>,
}

impl Lent {
    /// A log of which all words are used.
    pub fn new(name: &'static str, job: &Job, words: Vec<u32>) -> Lent {
        Lent { name, job: job.clone(), used: words.len() as u64, words, past: Vec::new() }
    }

    /// The resume.
    pub fn case(&self) -> Case {
        let log = [&self.words[..], &self.past].concat();
        Case::Route {
            job: self.job.clone(),
            terms: TERMS,
            used: Some(self.used),
            aimed: false,
            work: work(8 * self.job.kind.len() + 2),
            log,
        }
    }
}

impl Lent {
    /// The audit of the same words.
    pub fn audit(&self) -> Case {
        Case::Audit {
            job: self.job.clone(),
            terms: TERMS,
            used: self.used,
            work: work(8 * self.job.kind.len() + 2),
            log: [&self.words[..], &self.past].concat(),
        }
    }
}

/// The words that the plain router uses for a job, and the iteration that it comes to. Long logs end early.
fn run(job: &Job) -> (Vec<u32>, u32) {
    let log = vec![0; 4_000];
    let work = work(8 * job.kind.len());
    let after =
        compare::plain(&Case::Route { job: job.clone(), terms: TERMS, used: None, aimed: false, work, log });
    let Case::Route { mut log, .. } = after.case else { return (Vec::new(), 0) };
    log.truncate(after.answer.numbers[2] as usize);
    (log, after.answer.numbers[0] as u32)
}

/// So many iterations of the job's own log.
pub fn own_log(job: &Job, count: u32) -> Vec<u32> {
    logs::first_iterations(&run(job).0, count).to_vec()
}

/// How many these words have, if they are such.
pub fn own_iterations(job: &Job, words: &[u32]) -> Option<u32> {
    let count = logs::last_iteration(words);
    (count > 0 && own_log(job, count) == words).then_some(count)
}

/// Some log, with room after it: none, about as much as the straight run needs, or more.
pub fn lent(rng: &mut Rng, job: &Job) -> Lent {
    let (whole, iteration) = run(job);
    let mut lent = some(rng, job, &whole, iteration);
    let rest = whole.len().saturating_sub(lent.words.len());
    let room = match rng.below(6) {
        0 => 0,
        1 => rest,
        2 => rest.saturating_sub(1),
        3 => rng.below(rest + 40),
        _ => 3_000,
    };
    if lent.used == lent.words.len() as u64 {
        lent.past = (0..room as u32).map(|place| place % 9 + 1).collect();
    }
    lent
}

fn some(rng: &mut Rng, job: &Job, whole: &[u32], iteration: u32) -> Lent {
    match rng.below(16) {
        0..=2 if iteration > 1 => {
            let count = rng.within(1, iteration as usize - 1) as u32;
            Lent::new("own log", job, logs::first_iterations(whole, count).to_vec())
        }
        3 | 4 if iteration > 1 => {
            let limit = rng.within(1, iteration as usize - 1) as u32;
            let words = run(&Job { limit, ..job.clone() }).0;
            Lent::new("log under a lower limit", job, words)
        }
        5 => cut(rng, job, whole),
        6 => Lent { used: beyond(rng, whole), ..Lent::new("words beyond the log", job, whole.to_vec()) },
        7 => other_terms(rng, job, whole),
        8 => Lent::new("log of another job", job, run(&jobs::small(rng)).0),
        9 => {
            let mut lent = wandering(rng, job, "changed log", None);
            logs::change_log(rng, &job.source, &mut lent.words);
            Lent::new(lent.name, &lent.job, lent.words)
        }
        10..=12 => wandering(rng, job, "wandering log", None),
        13 | 14 => straying(rng, job),
        _ => Lent::new("whole log", job, whole.to_vec()),
    }
}

/// Part of the job's own log, at times none of it, or whole records.
fn cut(rng: &mut Rng, job: &Job, whole: &[u32]) -> Lent {
    let places = logs::records(whole);
    let words = match rng.below(4) {
        0 => 0,
        1 => rng.pick(&places),
        _ => rng.below(whole.len() + 1),
    };
    Lent::new(if words == 0 { "no words" } else { "cut log" }, job, whole[..words].to_vec())
}

/// More words than there are.
fn beyond(rng: &mut Rng, words: &[u32]) -> u64 {
    let length = words.len() as u64;
    rng.pick(&[length + 1, length + 9, length + (1 << 32), 1 << 63, u64::MAX])
}

/// The job's own log, taken up under another rule, k or tuning; if it is timed, by other criticalities or as an untimed one.
fn other_terms(rng: &mut Rng, job: &Job, whole: &[u32]) -> Lent {
    let mut other = job.clone();
    other.limit = (job.limit + 2).min(if job.is_timed() { 40 } else { 100 });
    match rng.below(if job.is_timed() { 5 } else { 3 }) {
        0 => other.rule = 3 - job.rule,
        1 => other.until = jobs::until(rng),
        2 => other.tuning = jobs::tuning(rng),
        3 => rng.shuffle(&mut other.criticality),
        _ => other.timed = 0,
    }
    let words = logs::first_iterations(whole, rng.within(1, 4) as u32).to_vec();
    Lent::new("log of other terms", &other, words)
}

/// A log of paths at random, mostly below the limit.
fn wandering(rng: &mut Rng, job: &Job, name: &'static str, stray: Option<Stray>) -> Lent {
    let most = rng.within(1, 4) as u32;
    let limit = if rng.percent(80) { job.limit.max(most + 1) } else { job.limit };
    let job = Job { limit, ..job.clone() };
    Lent::new(name, &job, wander::log(rng, &job, most, stray))
}

/// A log that breaks one clause of what a path must be.
fn straying(rng: &mut Rng, job: &Job) -> Lent {
    if job.is_timed() && rng.percent(50) {
        let own_prices = rng.percent(50);
        return wandering(rng, job, "log out of turn", Some(Stray::Turn { own_prices }));
    }
    let (name, stray) = rng.pick(&[
        ("log over another sink", Stray::Sink),
        ("log through a tree", Stray::Tree),
        ("log from outside a tree", Stray::Outside),
    ]);
    wandering(rng, job, name, Some(stray))
}
