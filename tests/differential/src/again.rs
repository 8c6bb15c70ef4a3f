//! What the wrapper makes of a run by itself: the same run in a log of its own length and watched, its log gone through again, its texts.

use arvumnao::{Aimed, Job, Log, Refusal, Search, Terms};
use std::ops::ControlFlow::Continue;

/// What is wrong with it, of a job that settled or reached its limit in one call, from so many lent words where it was a resume.
pub fn check(job: &Job, lent: Option<&[u32]>, search: Search, call: &Aimed) -> Result<(), String> {
    let log = match &call.answer {
        Ok(answer) => &answer.log,
        Err(Refusal::Limit { log, .. }) => log,
        Err(_) => return Ok(()),
    };
    let same =
        |name: &str, same: bool| same.then_some(()).ok_or_else(|| format!("the wrapper's {name} differs"));
    same("run in a log of its own length", *call == own_length(job, lent, search))?;
    let mut rows = 0;
    let watch = |_: &arvumnao::Progress| {
        rows += 1;
        Continue(())
    };
    let watched = match lent {
        None => job.route_with(search, watch),
        Some(lent) => job.resume_with(search, lent, watch),
    };
    same("watched run", *call == watched)?;
    let last = |words: &[u32]| Log::from_words(words, &job.nets).map_or(0, |log| iterations(&log));
    same("count of iterations", rows == iterations(log) - lent.map_or(0, last))?;
    same("trees", branches(job, log)? == routes(job, log)?)?;
    same("log read from its text", Log::read(log.text().as_bytes(), &job.nets).as_ref() == Ok(log))?;
    let text = job.text().map_err(|refusal| refusal.to_string())?;
    same("job read from its text", Job::read(text.as_bytes()) == Ok(plain_until(job)))?;
    replayed(job, log)
}

/// The run by the calls that choose the log's length themselves.
fn own_length(job: &Job, lent: Option<&[u32]>, search: Search) -> Aimed {
    match (lent, search) {
        (None, Search::Plain) => Aimed { answer: job.route(), expanded: 0 },
        (None, Search::Aimed) => job.route_aimed(),
        (Some(lent), Search::Plain) => Aimed { answer: job.resume(lent), expanded: 0 },
        (Some(lent), Search::Aimed) => job.resume_aimed(lent),
    }
}

/// The last iteration of a log.
fn iterations(log: &Log) -> u32 {
    log.records().last().map_or(0, |record| record.iteration)
}

/// Under rule 1 a text has no second number, which is 1 then.
fn plain_until(job: &Job) -> Job {
    let until = if job.terms.rule == 1 { 1 } else { job.terms.until };
    Job { terms: Terms { until, ..job.terms }, ..job.clone() }
}

/// The B lines of the final trees.
fn branches(job: &Job, log: &Log) -> Result<String, String> {
    let trees = log.trees(job).map_err(|refusal| refusal.to_string())?;
    let line = |net: u32, (from, to): &(u32, u32)| format!("B,{net},{from},{to}\n");
    Ok(trees.iter().flat_map(|tree| tree.branches.iter().map(|branch| line(tree.net, branch))).collect())
}

/// The B lines of the routes text.
fn routes(job: &Job, log: &Log) -> Result<String, String> {
    let routes = log.routes(&job.nets).map_err(|refusal| refusal.to_string())?;
    Ok(routes.split_inclusive('\n').filter(|line| line.starts_with('B')).collect())
}

/// Every record is gone through, and costs what the proved price says of its nodes.
fn replayed(job: &Job, log: &Log) -> Result<(), String> {
    let mut turns = 0;
    for iteration in log.replay(job).map_err(|refusal| refusal.to_string())? {
        let iteration = iteration.map_err(|refusal| format!("gone through again: {refusal}"))?;
        turns += iteration.turns.len();
        for turn in &iteration.turns {
            for step in &turn.steps {
                if Ok(step.price) != price(job, iteration.factor, turn.criticality, step) {
                    return Err(format!("the wrapper's {step:?} of {} has another price", turn.record));
                }
            }
        }
    }
    (turns == log.records().count()).then_some(()).ok_or_else(|| String::from("a turn is not gone through"))
}

/// The proved price of a node of a path. Others are such that they give this excess.
fn price(job: &Job, factor: u32, criticality: Option<u8>, step: &arvumnao::Step) -> Result<u64, Refusal> {
    let node = step.node as usize;
    let capacity = u32::from(job.block.capacity[node]);
    let kind = job.block.kind[node].into();
    let others = (capacity + step.excess).saturating_sub(1);
    let node = arvumnao::Use { kind, factor, others, capacity, history: step.history };
    match criticality {
        None => node.price(),
        Some(criticality) => node.timed_price(step.delay, criticality.into()),
    }
}
