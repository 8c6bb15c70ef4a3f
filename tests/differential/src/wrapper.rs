//! The wrapper's types beside the library's calls: it gives the same answers, and a reason for each refused line and table.

use crate::again;
use crate::compare::{idle, taken, After, Answer, Case};
use arvumnao::{
    Aimed, Block, Congestion, LineFault, Log, Nets, Refusal, Search, TableFault, Terms, Timing, Use,
    UseCounts,
};
use job::Job;

/// What is wrong with the wrapper's word on a call that the library has answered.
pub fn check(before: &Case, after: &After) -> Result<(), String> {
    let Answer { refusal, numbers } = &after.answer;
    let reason = match (before, &refusal[..]) {
        (Case::Read { text, .. }, &[number @ 1..=3, line]) => LineFault::find(text, number, line).reason,
        (Case::Search { graph, criticality, .. }, &[5, table]) => {
            let timed = Job { timed: criticality.is_some().into(), ..graph.clone() };
            TableFault::find(&typed(&timed), table as u32).reason
        }
        (Case::AddUses { graph, .. } | Case::WriteUses { graph, .. }, &[5, table]) => {
            TableFault::find(&typed(graph), table as u32).reason
        }
        (Case::Route { job, terms, .. }, &[5, table]) => {
            TableFault::find(&typed(&taken(job, *terms)), table as u32).reason
        }
        (Case::Write { source, .. }, &[5, _]) => TableFault::of_log(source).reason,
        _ => Some(String::new()),
    };
    if reason.is_none() {
        return Err(format!("the wrapper has no reason for {refusal:?}"));
    }
    let Some(same) = same(before, &after.case, refusal, numbers) else { return Ok(()) };
    if !same {
        return Err(format!("the wrapper's answer is not {:?}", after.answer));
    }
    run_again(before).unwrap_or(Ok(()))
}

/// What the wrapper makes of a run by itself; nothing of other calls.
fn run_again(case: &Case) -> Option<Result<(), String>> {
    let Case::Route { job, terms, .. } = case else { return None };
    let job = typed(&taken(job, *terms));
    let (lent, search, call) = called(case, &job)?;
    Some(again::check(&job, lent, search, &call))
}

/// A run as the case has it, by the wrapper: the words lent, the search, and what it tells.
fn called<'c>(case: &'c Case, job: &arvumnao::Job) -> Option<(Option<&'c [u32]>, Search, Aimed)> {
    let Case::Route { used, aimed, log, .. } = case else { return None };
    let lent = match used {
        None => None,
        Some(used) => Some(log.get(..usize::try_from(*used).ok()?)?),
    };
    let search = if *aimed { Search::Aimed } else { Search::Plain };
    let call = match (lent, search) {
        (None, Search::Plain) => Aimed { answer: job.route_in(log.len()), expanded: 0 },
        (None, Search::Aimed) => job.route_aimed_in(log.len()),
        (Some(lent), Search::Plain) => Aimed { answer: job.resume_in(lent, log.len()), expanded: 0 },
        (Some(lent), Search::Aimed) => job.resume_aimed_in(lent, log.len()),
    };
    Some((lent, search, call))
}

/// Whether the wrapper answers the same; nothing where it lends more than the case does.
fn same(before: &Case, after: &Case, refusal: &[u64], numbers: &[u64]) -> Option<bool> {
    if matches!(refusal.first(), Some(4 | 6 | 11)) || idle(before) {
        return None;
    }
    let accepted = |given: Vec<u64>| (refusal.to_vec(), if refusal.is_empty() { given } else { Vec::new() });
    Some(match (before, after) {
        (&Case::Price { kind, factor, others, capacity, history, timing }, _) => {
            let node = Use { kind, factor, others, capacity, history };
            let price = match timing {
                None => node.price(),
                Some([delay, criticality]) => node.timed_price(delay, criticality),
            };
            told(price.map(|price| vec![price])) == accepted(numbers.to_vec())
        }
        (Case::Search { graph, .. }, Case::Search { work, .. }) => {
            told(distances(before)) == accepted(work.iter().take(graph.kind.len()).copied().collect())
        }
        (Case::Route { job, terms, .. }, Case::Route { log, .. }) => {
            let (_, search, call) = called(before, &typed(&taken(job, *terms)))?;
            let (numbers, expanded) = numbers.split_at(3);
            routed(call.answer, refusal, numbers, log)
                && (search == Search::Plain || expanded == [call.expanded])
        }
        (Case::Read { text, .. }, Case::Read { tables, .. }) => match arvumnao::Job::read(text) {
            Ok(read) => {
                let mut expected = tables.clone();
                expected.take_numbers(numbers);
                refusal.is_empty() && read == typed(&expected)
            }
            Err(other) => other.numbers() == refusal,
        },
        (Case::Write { picture, source, log, .. }, Case::Write { buffer, .. }) => {
            let nets = Nets { source: source.clone(), ..Nets::default() };
            let write = if *picture { Log::picture } else { Log::routes };
            let routes = Log::from_words(log, &nets).and_then(|log| write(&log, &nets));
            let bytes = buffer.iter().take(numbers[0] as usize).copied().map(u64::from);
            told(routes.map(wide)) == accepted(bytes.collect())
        }
        (Case::AddUses { graph, counts, logs, log }, Case::AddUses { counts: after, .. }) => {
            let mut uses = use_counts(counts, *logs);
            let added = uses.add(&typed(graph).block, log);
            told(added.map(|()| Vec::new())) == accepted(Vec::new()) && uses == use_counts(after, numbers[0])
        }
        (Case::WriteUses { graph, counts, logs, .. }, Case::WriteUses { buffer, .. }) => {
            let text = use_counts(counts, *logs).text(&typed(graph).block);
            let bytes = buffer.iter().take(numbers[0] as usize).copied().map(u64::from);
            told(text.map(wide)) == accepted(bytes.collect())
        }
        _ => return None,
    })
}

/// A text's bytes.
fn wide(text: String) -> Vec<u64> {
    text.bytes().map(u64::from).collect()
}

/// Counts in the wrapper's type.
fn use_counts(counts: &[u64], logs: u64) -> UseCounts {
    UseCounts { uses: *counts.first_chunk().expect("counts that a call takes"), logs }
}

/// The distances of a search by the wrapper.
fn distances(case: &Case) -> Result<Vec<u64>, Refusal> {
    let Case::Search { graph, factor, criticality, history, others, in_tree, .. } = case else {
        return Ok(Vec::new());
    };
    let lists = (history.clone(), others.clone(), in_tree.clone());
    let start = Congestion { factor: *factor, history: lists.0, others: lists.1, in_tree: lists.2 };
    let block = typed(graph).block;
    let distances = match criticality {
        None => block.distances(&start)?,
        Some(criticality) => block.timed_distances(&start, &graph.delay, *criticality)?,
    };
    Ok(distances.into_iter().map(|distance| distance.unwrap_or(u64::MAX)).collect())
}

/// An answer as the refusal's numbers and what was given.
fn told(answer: Result<Vec<u64>, Refusal>) -> (Vec<u64>, Vec<u64>) {
    match answer {
        Ok(given) => (Vec::new(), given),
        Err(refusal) => (refusal.numbers(), Vec::new()),
    }
}

/// Whether the wrapper's run has this refusal, these numbers and the words used of this log.
fn routed(answer: Result<arvumnao::Answer, Refusal>, refusal: &[u64], numbers: &[u64], log: &[u32]) -> bool {
    let (other, run) = match &answer {
        Ok(answer) => (Vec::new(), Some((u64::from(answer.iteration), answer.turns, &answer.log))),
        Err(stopped) => (stopped.numbers(), run(stopped)),
    };
    let given = run.map_or((vec![0, 0, 0], &[][..]), |(iteration, turns, log)| {
        (vec![iteration, turns, log.words().len() as u64], log.words())
    });
    let records = run.map_or(0, |(_, _, log)| log.records().count());
    other == refusal
        && given.0 == numbers
        && given.1 == &log[..numbers[2] as usize]
        && records as u64 == numbers[1]
}

/// Iteration, turns and log of a run that was stopped.
fn run(refusal: &Refusal) -> Option<(u64, u64, &Log)> {
    match refusal {
        Refusal::LogFull { iteration, turns, log } | Refusal::Limit { iteration, turns, log, .. } => {
            Some((u64::from(*iteration), *turns, log))
        }
        _ => None,
    }
}

/// The job in the wrapper's types.
fn typed(job: &Job) -> arvumnao::Job {
    let [limit, first, up, down, step, rule, until, timed] = job.terms();
    let timing = Timing { delay: job.delay.clone(), criticality: job.criticality.clone() };
    arvumnao::Job {
        block: Block {
            kind: job.kind.clone(),
            capacity: job.capacity.clone(),
            first_edge: job.first_edge.clone(),
            edge_target: job.edge_target.clone(),
        },
        nets: Nets { source: job.source.clone(), first_sink: job.first_sink.clone(), sink: job.sink.clone() },
        terms: Terms { limit, first, up, down, step, rule, until },
        timing: (timed != 0).then_some(timing),
    }
}
