//! `log`: a job's paths and costs, a line for each record.

use super::Command;
use crate::args::{flag, valued, Args};
use crate::console::Console;
use crate::failure::{Failure, Status};
use crate::files::Output;
use crate::run::{broken, Run};
use arvumnao::{Step, Turn};
use std::fmt::Write;

pub const COMMAND: Command = Command {
    name: "log",
    summary: "print every path that was found, with its cost, and why it costs that",
    usage: "JOB [--net N] [--iteration I] [--why] [-o FILE]",
    about: "\
Routes a job and prints its log, a line for each record, in the order of the turns; also if the limit was reached.
With --why the nodes of each path follow it, and how each one's price is made up. The prices are computed
again from the job and the earlier records. If they don't add up to the cost logged, nothing is printed.",
    options: &[
        valued(None, "net", "N", "only the records of that net"),
        valued(None, "iteration", "I", "only the records of that iteration"),
        flag(None, "why", "split each cost into history, base cost, factor, excess and delay"),
        valued(Some('o'), "output", "FILE", "write to FILE"),
    ],
    several: false,
    run,
};

fn run(args: &Args, console: &Console) -> Result<Status, Failure> {
    let net = args.number("net", 0..=511)?;
    let wanted = args.number("iteration", 1..=100)?;
    let output = Output::named(args.path("output"));
    output.test(&args.jobs)?;
    let run = Run::of(&args.jobs[0], console)?;
    let mut text = String::new();
    let replay = run.log.replay(&run.job).map_err(|refusal| broken(&run.name, &refusal))?;
    for iteration in replay {
        let iteration = iteration.map_err(|refusal| broken(&run.name, &refusal))?;
        let chosen = |turn: &&Turn| net.map_or(true, |net| net == turn.record.net);
        if wanted.map_or(true, |wanted| wanted == iteration.number) {
            for turn in iteration.turns.iter().filter(chosen) {
                let _ = writeln!(text, "{}", turn.record);
                if args.has("why") {
                    text += &why(turn, iteration.factor);
                }
            }
        }
    }
    if text.is_empty() {
        console.say(&format!("{}: no record is of that net and iteration", run.name));
    }
    output.write(text.as_bytes())?;
    Ok(run.status())
}

/// How the price of each node of a path is made up.
fn why(turn: &Turn, factor: u32) -> String {
    turn.steps
        .iter()
        .map(|step| format!("  node {}: {}\n", step.node, split(step, turn.criticality, factor)))
        .collect()
}

fn split(step: &Step, criticality: Option<u8>, factor: u32) -> String {
    let Step { history, base, excess, delay, price, .. } = step;
    let room = format!("history {history} × base {base} × (100 + factor {factor} × excess {excess})");
    match criticality {
        None => format!("{room} = {price}"),
        Some(critical) => {
            format!("criticality {critical} × delay {delay} × 100 + (10 − {critical}) × {room} = {price}")
        }
    }
}
