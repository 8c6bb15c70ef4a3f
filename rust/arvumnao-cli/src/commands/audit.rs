//! `audit`: whether each turn of a log, whoever made it, is a cheapest one.

use super::Command;
use crate::args::Args;
use crate::console::Console;
use crate::failure::{Failure, Status};
use crate::files::Text;
use crate::verdict;
use arvumnao::{Audit, Job, Log, Refusal};

pub const COMMAND: Command = Command {
    name: "audit",
    summary: "tell whether each turn of a log is a cheapest one, whoever made it",
    usage: "JOB LOG",
    about: "\
Reads a log as --log of route writes it, holds each turn against the job and the proved search, and tells the
first that is not a cheapest one, with a cheaper path. The log may end behind any turn. One whose turns are
not this job's is refused.",
    options: &[],
    several: true,
    run,
};

fn run(args: &Args, console: &Console) -> Result<Status, Failure> {
    let [job, log] = &args.jobs[..] else {
        return Err(Failure::usage("a job and a log are taken, no less and no more"));
    };
    if job == "-" && log == "-" {
        return Err(Failure::usage("job and log can't both be read from standard input"));
    }
    let job_text = Text::read(job)?;
    let log_text = Text::read_long(log)?;
    let of_job = |refusal: Refusal| {
        console.put(&verdict::of_job(&job_text, &refusal, console));
        Failure::Told(Status::of(&refusal))
    };
    let of_log = |refusal: Refusal| {
        console.put(&verdict::of_log(&log_text, &refusal, console));
        Failure::Told(Status::of(&refusal))
    };
    let job = Job::read(&job_text.bytes).map_err(of_job)?;
    let log = Log::read(&log_text.bytes, &job.nets).map_err(of_log)?;
    let audit = log.audit(&job).map_err(|refusal| match refusal {
        Refusal::Diverges { .. } => of_log(refusal),
        _ => of_job(refusal),
    })?;
    match &audit.finding {
        None => {
            console.say(&format!("{}: sound: {}", log_text.name, told(&audit)));
            Ok(Status::Routed)
        }
        Some(finding) => {
            let nodes = |path: &[u32]| path.iter().map(u32::to_string).collect::<Vec<_>>().join(" ");
            let paths =
                format!("  its path: {}\n  cheaper: {}\n", nodes(finding.record.path), nodes(&finding.path));
            console.put(&verdict::told(&log_text.name, "", &finding.to_string(), console));
            console.put(&paths);
            Ok(Status::NotCheapest)
        }
    }
}

/// What is told of a sound log.
fn told(audit: &Audit) -> String {
    let count = |number: u64, name: &str| format!("{number} {name}{}", if number == 1 { "" } else { "s" });
    let turns = match audit.turns {
        1 => String::from("its turn is a cheapest one"),
        turns => format!("each of its {turns} turns is a cheapest one"),
    };
    match (audit.whole, audit.over) {
        (0, _) => format!("{turns}; no iteration is whole"),
        (whole, 0) => {
            format!("{turns}; after {}, whole, no node is over capacity", count(whole.into(), "iteration"))
        }
        (whole, over) => {
            let nodes = count(over.into(), "node");
            let verb = if over == 1 { "is" } else { "are" };
            format!(
                "{turns}; after {}, whole, {nodes} {verb} over capacity",
                count(whole.into(), "iteration")
            )
        }
    }
}
