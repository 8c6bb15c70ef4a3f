//! The command `arvumnao route` beside the library's own call, on the largest jobs.

use crate::jobs::{self, Shape, SHAPES};
use crate::routers::{Result, Router};
use crate::{clock, Lent};
use job::{texts, Job};
use std::io::Write;
use std::path::PathBuf;
use std::process::{Command, Stdio};
use std::time::Duration;

/// Runs of each; the best counts.
const RUNS: usize = 5;

/// The command as cargo builds it, or as ARVUMNAO names it.
fn built() -> PathBuf {
    let here = PathBuf::from(env!("CARGO_MANIFEST_DIR"));
    let own = || here.join("../../rust/arvumnao-cli/target/release/arvumnao");
    std::env::var_os("ARVUMNAO").map_or_else(own, PathBuf::from)
}

/// Prints the processor time of both for jobs of so many nodes, and their ratio.
pub fn print(nodes: usize, lent: &mut Lent) {
    let command = built();
    if !command.exists() {
        println!("{} is not built: cargo build --release in rust/arvumnao-cli", command.display());
        return;
    }
    println!("The command beside the library's call: milliseconds of processor time, best of {RUNS} runs, the process and its files included.");
    println!("{:<10}{:>6}{:>6}{:>10}{:>10}{:>8}", "shape", "nodes", "limit", "command", "proved", "ratio");
    let long = Job { limit: 100, ..jobs::make(Shape::Congested, nodes) };
    let jobs = SHAPES.map(|shape| (shape, jobs::make(shape, nodes)));
    for (shape, job) in jobs.into_iter().chain([(Shape::Congested, long)]) {
        let [command, proved] = best(&command, &job, lent).map(|time| time.as_secs_f64() * 1e3);
        let name = format!("{shape:?}").to_lowercase();
        let (limit, ratio) = (job.limit, command / proved);
        println!("{name:<10}{nodes:>6}{limit:>6}{command:>10.1}{proved:>10.1}{ratio:>8.2}");
    }
}

/// The best times of both, whose verdicts must agree.
fn best(command: &PathBuf, job: &Job, lent: &mut Lent) -> [Duration; 2] {
    let text = texts::text(job);
    let mut best = [Duration::MAX; 2];
    for _ in 0..RUNS {
        let start = clock::cpu_time();
        let result = Router::Proved.run()(job, &mut lent.work[..8 * job.kind.len()], &mut lent.log);
        best[1] = best[1].min(clock::cpu_time() - start);
        best[0] = best[0].min(routed(command, &text, &result));
    }
    best
}

/// The time of the command for a text.
fn routed(command: &PathBuf, text: &[u8], expected: &Result) -> Duration {
    let start = clock::children_time();
    let mut process = Command::new(command);
    process.args(["route", "-", "-q"]).stdin(Stdio::piped()).stdout(Stdio::piped()).stderr(Stdio::null());
    let mut process = process.spawn().expect("the command runs");
    process.stdin.take().expect("a pipe").write_all(text).expect("the text is read");
    let output = process.wait_with_output().expect("the command ends");
    let head = output.stdout.split(|byte| *byte == b'\n').next().unwrap_or_default();
    let routed = format!("R,{},{}", expected.numbers[0], expected.numbers[1]);
    let wanted = if expected.refusal.is_empty() { routed } else { String::new() };
    assert_eq!(String::from_utf8_lossy(head), wanted, "the command gives another outcome");
    clock::children_time() - start
}
