//! Runs made in any steps end as one call does, over many seeded jobs: small and crowded, timed and not, of both rules.

use crate::run::Run;
use crate::watch::{watched, Pace};
use crate::{Aimed, Job, Log, Progress, Refusal, Search};
use ::job::{jobs, texts, Rng};
use std::collections::BTreeSet;
use std::ops::ControlFlow::{Break, Continue};

/// The words of a log that is long enough for each of these jobs.
const WORDS: usize = 1 << 20;

/// At this pace each call makes one iteration.
const EACH: Pace = Pace { least: 0.0, flood: 0.0, word: 0.0, iteration: 1.0 };

/// A seeded job; none if it would be a timed one that is too large. Jobs of few nodes and narrow wires take several iterations.
fn seeded(seed: u64) -> Option<Job> {
    let rng = &mut Rng::new(seed);
    let drawn = match seed % 3 {
        0 => jobs::job(rng),
        1 => jobs::small(rng),
        _ => jobs::endless(rng),
    };
    Job::read(&texts::text(&drawn)).ok()
}

/// A run of this search in calls of this many iterations each.
fn stepped(job: &Job, search: Search, log: Option<&[u32]>, iterations: u32) -> Aimed {
    let mut run = Run::new(job, search, log);
    while run.go_on(iterations) {}
    run.ended()
}

/// The log of a run that made turns.
fn log(answer: &Aimed) -> Option<&Log> {
    match &answer.answer {
        Ok(answer) => Some(&answer.log),
        Err(Refusal::Limit { log, .. }) => Some(log),
        Err(_) => None,
    }
}

/// The words of a log up to this iteration.
fn words(log: &Log, iteration: u32) -> usize {
    log.records()
        .take_while(|record| record.iteration <= iteration)
        .map(|record| record.words() as usize)
        .sum()
}

#[test]
fn any_steps_end_as_one_call() {
    let mut kinds = [0; 4];
    for (seed, job) in (0..300).filter_map(|seed| Some((seed, seeded(seed)?))) {
        for search in [Search::Plain, Search::Aimed] {
            let straight = Run::new(&job, search, None).in_words(WORDS);
            for iterations in [1, 2, 3, u32::MAX] {
                assert_eq!(stepped(&job, search, None, iterations), straight, "seed {seed}");
            }
            let Some(whole) = log(&straight) else { continue };
            let last = whole.records().last().map_or(0, |record| record.iteration);
            if last < 2 {
                continue;
            }
            let place = usize::from(job.timing.is_some()) * 2 + usize::from(job.terms.rule == 2);
            kinds[place] += 1;
            let lent = &whole.words()[..words(whole, 1 + (seed as u32) % (last - 1))];
            let resumed = Run::new(&job, search, Some(lent)).in_words(WORDS);
            assert_eq!(resumed.answer, straight.answer, "seed {seed}");
            assert_eq!(stepped(&job, search, Some(lent), 1), resumed, "seed {seed}");
        }
    }
    // with several iterations: rule 1, rule 2, timed by rule 1, timed by rule 2
    assert!(kinds.iter().all(|count| *count >= 8), "{kinds:?}");
}

/// What the run's log, gone through again, says of each iteration.
fn replayed(job: &Job, log: &Log) -> Vec<Progress> {
    let row = |iteration: Result<crate::Iteration, Refusal>| {
        let iteration = iteration.unwrap();
        let mut nets: Vec<u32> = iteration.turns.iter().map(|turn| turn.record.net).collect();
        nets.dedup();
        let over = iteration.overfull.iter().map(|node| node.nets.len() as u64 - u64::from(node.capacity));
        Progress {
            iteration: iteration.number,
            factor: iteration.factor,
            nets: nets.len() as u32,
            turns: iteration.turns.len() as u64,
            overfull: iteration.overfull.len() as u32,
            overuse: over.sum(),
            tree_cost: iteration.tree_cost,
        }
    };
    log.replay(job).unwrap().map(row).collect()
}

#[test]
fn watched_runs() {
    let mut stops = 0;
    for (seed, job) in (0..150).filter_map(|seed| Some((seed, seeded(seed)?))) {
        let straight = Run::new(&job, Search::Plain, None).in_words(WORDS);
        let mut rows = Vec::new();
        let run = watched(Run::new(&job, Search::Plain, None), EACH, |progress| {
            rows.push(*progress);
            Continue(())
        });
        assert_eq!(run, straight, "seed {seed}");
        assert_eq!(job.route_with(Search::Plain, |_| Continue(())), straight, "seed {seed}");
        let Some(whole) = log(&straight) else {
            assert_eq!(rows, [], "seed {seed}");
            continue;
        };
        assert_eq!(rows, replayed(&job, whole), "seed {seed}");
        let last = rows.len() as u32;
        for stop in BTreeSet::from([1, 2, last / 2, last - 1, last]).range(1..=last) {
            stops += usize::from(stopped(&job, whole, *stop, last));
        }
    }
    assert!(stops >= 100, "{stops}");
}

/// A run that is stopped after this iteration has the log up to there, and another run continues from it; at the last one it is at its end.
fn stopped(job: &Job, whole: &Log, stop: u32, last: u32) -> bool {
    let watch = |progress: &Progress| if progress.iteration == stop { Break(()) } else { Continue(()) };
    let each = watched(Run::new(job, Search::Plain, None), EACH, watch);
    assert_eq!(job.route_with(Search::Plain, watch), each);
    if stop == last {
        assert_eq!(each.answer, job.route());
        return false;
    }
    let Err(Refusal::Stopped { iteration, turns, log }) = each.answer else {
        panic!("not stopped at {stop}")
    };
    assert_eq!((iteration, turns), (stop, log.records().count() as u64));
    assert_eq!(log.words(), &whole.words()[..words(whole, stop)]);
    let mut rows = Vec::new();
    let resumed = job.resume_with(Search::Plain, &log, |progress| {
        rows.push(*progress);
        Continue(())
    });
    assert_eq!(resumed.answer, job.route());
    assert_eq!(rows, replayed(job, whole)[stop as usize..]);
    true
}

/// A log that doesn't follow the job, and limits and tables that are not allowed, are refused in the numbers of one call.
#[test]
fn refused_as_by_one_call() {
    for (seed, mut job) in (0..300).filter_map(|seed| Some((seed, seeded(seed)?))) {
        let straight = Run::new(&job, Search::Plain, None).in_words(WORDS);
        let whole = log(&straight).map_or(Vec::new(), |log| log.words().to_vec());
        for place in 0..whole.len().min(40) {
            let mut damaged = whole.clone();
            damaged[place] = damaged[place].wrapping_add(1 + seed as u32 % 3);
            let one = Run::new(&job, Search::Plain, Some(&damaged)).in_words(WORDS);
            assert_eq!(stepped(&job, Search::Plain, Some(&damaged), 1), one, "seed {seed}, word {place}");
        }
        for limit in [0, 41, 101, u32::MAX] {
            job.terms.limit = limit;
            let one = Run::new(&job, Search::Plain, None).in_words(WORDS);
            assert_eq!(stepped(&job, Search::Plain, None, 1), one, "seed {seed}, limit {limit}");
        }
    }
}
