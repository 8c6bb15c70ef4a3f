//! The wrapper's runs beside one call of the library: in a log of their own length, watched, and the log gone through again.

use crate::clock::cpu_time;
use crate::jobs::{self, Shape, SHAPES};
use arvumnao::{Log, Refusal, Search};
use job::texts;
use std::ops::ControlFlow::Continue;
use std::time::Duration;

/// Runs of each; the best counts.
const RUNS: usize = 3;
/// Words of the log that one call is lent.
const LOG: usize = 1 << 24;

/// The time of a call beside what it gives.
fn timed<T>(call: impl FnOnce() -> T) -> (Duration, T) {
    let start = cpu_time();
    let given = call();
    (cpu_time() - start, given)
}

/// The best times of one call, of `route`, of `route_with` and of `replay`, and the iterations. All give the same.
fn best(job: &arvumnao::Job) -> ([Duration; 4], u32) {
    let mut best = [Duration::MAX; 4];
    let mut iterations = 0;
    for _ in 0..RUNS {
        let (call, straight) = timed(|| job.route_in(LOG));
        let (route, routed) = timed(|| job.route());
        iterations = 0;
        let watch = |_: &arvumnao::Progress| {
            iterations += 1;
            Continue(())
        };
        let (with, watched) = timed(|| job.route_with(Search::Plain, watch));
        assert!(routed == straight && watched.answer == straight, "the wrapper's runs differ");
        let log = match straight {
            Ok(answer) => answer.log,
            Err(Refusal::Limit { log, .. }) => log,
            Err(refusal) => panic!("{refusal}"),
        };
        let (replay, ()) = timed(|| replay(&log, job));
        for (best, time) in best.iter_mut().zip([call, route, with, replay]) {
            *best = time.min(*best);
        }
    }
    (best, iterations)
}

fn replay(log: &Log, job: &arvumnao::Job) {
    let replay = log.replay(job).expect("sound tables");
    replay.for_each(|iteration| drop(iteration.expect("the logged costs")));
}

/// Prints the times for jobs of so many nodes with limit 100, under both rules.
pub fn print(nodes: usize) {
    println!("The wrapper, limit 100: milliseconds of processor time of one call, best of {RUNS} runs, and the others beside it.");
    print!("{:<10}{:>6}{:>5}{:>6}{:>10}", "shape", "nodes", "rule", "iter", "one call");
    println!("{:>8}{:>12}{:>8}", "route", "route_with", "replay");
    for shape in SHAPES {
        for rule in [1, 2] {
            print_row(shape, nodes, rule);
        }
    }
}

fn print_row(shape: Shape, nodes: usize, rule: u32) {
    let job = job::Job { limit: 100, rule, ..jobs::make(shape, nodes) };
    let job = arvumnao::Job::read(&texts::text(&job)).expect("a sound job");
    let (best, iterations) = best(&job);
    let [call, others @ ..] = best.map(|time| time.as_secs_f64() * 1e3);
    let [route, with, replay] = others.map(|time| time / call);
    let name = format!("{shape:?}").to_lowercase();
    println!("{name:<10}{nodes:>6}{rule:>5}{iterations:>6}{call:>10.1}{route:>8.2}{with:>12.2}{replay:>8.2}");
}
