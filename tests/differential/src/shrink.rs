//! Makes a failing case smaller while it still fails, and prints it.

use crate::compare::{lent_terms, Case};
use crate::resumes;
use job::{Job, Tuning, PLAIN_RULE, PLAIN_UNTIL, TERMS};
use std::time::{Duration, Instant};

/// A way to a smaller case. Spans are a first place and a count.
#[derive(Clone, Copy, Debug)]
enum Step {
    /// Drops nodes with their edges, nets and sinks.
    Nodes(usize, usize),
    /// Drops edges.
    Edges(usize, usize),
    /// Drops nets with their sinks.
    Nets(usize, usize),
    /// Drops sinks.
    Sinks(usize, usize),
    /// Sets the plain tuning.
    Plain,
    /// Sets rule 1.
    Rule,
    /// Sets the k of a V line without one.
    Until,
    /// Makes a timed job an untimed one without tables 9 and 10.
    Untimed,
    /// Lends so many iterations of the job's own log.
    Own(u32),
    /// Lends all terms and no entry more.
    Terms,
    /// Searches plainly.
    Unaimed,
    /// Drops entries of the slice with this number.
    Cut(usize, usize, usize),
    /// Lowers an entry of the slice with this number.
    Lower(usize, usize, u64),
    /// Lowers the single number with this number.
    Number(usize, u64),
    /// Fills the slice with this number with one value.
    Fill(usize),
    /// Drops a record of a stored log.
    Record(usize),
    /// Drops the second node of a record of a stored log.
    PathNode(usize),
}

/// How long the shrinker may try.
const TIME: Duration = Duration::from_secs(40);

/// The smallest case found that still fails.
pub fn shrink(case: &Case, fails: &dyn Fn(&Case) -> bool) -> Case {
    let end = Instant::now() + TIME;
    let mut best = case.clone();
    loop {
        let mut better = false;
        for step in steps(&best) {
            if Instant::now() > end {
                return best;
            }
            if let Some(smaller) = apply(&best, step) {
                if smaller != best && fails(&smaller) {
                    best = smaller;
                    better = true;
                }
            }
        }
        if !better {
            return best;
        }
    }
}

/// All steps worth trying, coarse ones first.
fn steps(case: &Case) -> Vec<Step> {
    let mut list = vec![Step::Plain, Step::Rule, Step::Until, Step::Untimed, Step::Terms, Step::Unaimed];
    list.extend([Step::Own(1), Step::Own(2)]);
    let (nodes, edges, nets, sinks) = sizes(case);
    list.extend(spans(nets).into_iter().map(|(from, count)| Step::Nets(from, count)));
    list.extend(spans(nodes).into_iter().map(|(from, count)| Step::Nodes(from, count)));
    list.extend(spans(sinks).into_iter().map(|(from, count)| Step::Sinks(from, count)));
    list.extend(spans(edges).into_iter().map(|(from, count)| Step::Edges(from, count)));
    for (number, value) in numbers(case).into_iter().enumerate() {
        list.extend(lower_by_parts(value).into_iter().map(|value| Step::Number(number, value)));
    }
    list.extend((0..record_count(case)).rev().map(Step::Record));
    list.extend((0..record_count(case)).map(Step::PathNode));
    for number in 0..slice_count(case) {
        let length = slice_length(case, number);
        if only_written(case, number) {
            list.push(Step::Fill(number));
            list.extend(ends(length).into_iter().map(|(from, count)| Step::Cut(number, from, count)));
            continue;
        }
        list.extend(spans(length).into_iter().map(|(from, count)| Step::Cut(number, from, count)));
        for place in 0..length.min(400) {
            let value = entry(case, number, place);
            list.extend(lower(value).into_iter().map(|value| Step::Lower(number, place, value)));
        }
    }
    list
}

/// Spans of a list, half of it first, single places last, the later ones before the earlier.
fn spans(length: usize) -> Vec<(usize, usize)> {
    let mut list = Vec::new();
    let mut count = length;
    while count > 0 {
        let mut from = length - length % count;
        while from > 0 {
            from -= count;
            list.push((from, count));
        }
        count /= 2;
    }
    list
}

/// Spans at the end of a list, the whole of it first.
fn ends(length: usize) -> Vec<(usize, usize)> {
    let mut list = Vec::new();
    let mut count = length;
    while count > 0 {
        list.push((length - count, count));
        count /= 2;
    }
    list
}

/// Whether a slice is one whose old content a call doesn't read.
fn only_written(case: &Case, number: usize) -> bool {
    match case {
        Case::Price { .. } => false,
        Case::Search { .. } => number == 4,
        Case::Route { used, .. } => number == 7 || number == 8 && used.is_none(),
        Case::Audit { .. } => number == 7,
        Case::Read { .. } => number >= 1,
        Case::Write { .. } => number >= 2,
        Case::AddUses { .. } => false,
        Case::WriteUses { .. } => number >= 5,
    }
}

/// Whole records of a stored log.
fn record_count(case: &Case) -> usize {
    match case {
        Case::Write { log, .. }
        | Case::AddUses { log, .. }
        | Case::Audit { log, .. }
        | Case::Route { used: Some(_), log, .. } => crate::logs::records(log).len() - 1,
        _ => 0,
    }
}

/// A case without a record of its stored log, or with one of a shorter path.
fn drop_from_log(case: &mut Case, step: Step) -> Option<()> {
    let (log, used) = match case {
        Case::Write { log, .. } | Case::AddUses { log, .. } => (log, None),
        Case::Route { log, used, .. } => (log, used.as_mut()),
        Case::Audit { log, used, .. } => (log, Some(used)),
        _ => return None,
    };
    let (places, length) = (crate::logs::records(log), log.len());
    match step {
        Step::Record(record) => {
            log.drain(*places.get(record)?..*places.get(record + 1)?);
        }
        Step::PathNode(record) => {
            let (from, end) = (*places.get(record)?, *places.get(record + 1)?);
            if end - from <= 7 {
                return None;
            }
            log[from + 5] -= 1;
            log.remove(from + 7);
        }
        _ => return None,
    }
    if let Some(used) = used {
        *used = used.saturating_sub((length - log.len()) as u64);
    }
    Some(())
}

/// Lower values to try.
fn lower(value: u64) -> Vec<u64> {
    let mut list = vec![0, 1, value / 2, value.saturating_sub(1)];
    list.retain(|lower| *lower < value);
    list.dedup();
    list
}

/// Lower values to try for a single number: 0, then it without a half, a quarter and so on, so that a bound far from 0 is soon met.
fn lower_by_parts(value: u64) -> Vec<u64> {
    let parts = std::iter::successors(Some(value), |part| Some(part / 2));
    parts.take_while(|part| *part > 0).map(|part| value - part).collect()
}

/// Nodes, edges, nets and sinks of a case that has them.
fn sizes(case: &Case) -> (usize, usize, usize, usize) {
    match case {
        Case::Search { graph, .. } | Case::AddUses { graph, .. } | Case::WriteUses { graph, .. } => {
            (graph.kind.len(), graph.edge_target.len(), 0, 0)
        }
        Case::Route { job, .. } | Case::Audit { job, .. } => job_sizes(job),
        Case::Read { text, .. } => read_back(text).map_or((0, 0, 0, 0), |job| job_sizes(&job)),
        _ => (0, 0, 0, 0),
    }
}

fn job_sizes(job: &Job) -> (usize, usize, usize, usize) {
    (job.kind.len(), job.edge_target.len(), job.source.len(), job.sink.len())
}

/// The text with another limit in its first line.
fn with_limit(text: &[u8], limit: u32) -> Option<Vec<u8>> {
    let end = text.iter().position(|byte| *byte == b'\n')?;
    let comma = text[..end].iter().rposition(|byte| *byte == b',')?;
    Some([&text[..=comma], limit.to_string().as_bytes(), &text[end..]].concat())
}

/// The job that a text holds by the plain reader, if it holds one; a timed one may have a higher limit than it is read with.
fn read_back(text: &[u8]) -> Option<Job> {
    let lines = text.iter().filter(|byte| **byte == b'\n').count() + 2;
    let tables = Job::unread([lines; 9]);
    let after = crate::compare::plain(&Case::Read { text: text.to_vec(), tables });
    let Case::Read { tables: mut filled, .. } = after.case else { return None };
    match after.answer.refusal[..] {
        [] => {}
        [15, 0..=1_024, limit] => {
            let job = read_back(&with_limit(text, 40)?)?;
            return Some(Job { limit: limit as u32, ..job });
        }
        _ => return None,
    }
    filled.take_numbers(&after.answer.numbers);
    Some(filled)
}

/// The case after a step, if the step can be made.
fn apply(case: &Case, step: Step) -> Option<Case> {
    let mut smaller = case.clone();
    match step {
        Step::Cut(number, from, count) => cut_slice(&mut smaller, number, from, count)?,
        Step::Lower(number, place, value) => set_entry(&mut smaller, number, place, value)?,
        Step::Number(number, value) => set_number(&mut smaller, number, value)?,
        Step::Fill(number) => fill_slice(&mut smaller, number),
        Step::Record(_) | Step::PathNode(_) => drop_from_log(&mut smaller, step)?,
        _ => return drop_parts(smaller, step),
    }
    Some(smaller)
}

/// The case without some nodes, edges, nets or sinks, or without terms of its own.
fn drop_parts(mut case: Case, step: Step) -> Option<Case> {
    match &mut case {
        Case::Search { graph, work, history, others, in_tree, .. } => {
            let Step::Nodes(from, count) = step else {
                let Step::Edges(from, count) = step else { return None };
                drop_edges(graph, from, count)?;
                return Some(case);
            };
            drop_nodes(graph, from, count)?;
            work.truncate(work.len().saturating_sub(8 * count));
            cut(history, from, count);
            cut(others, from, count);
            cut(in_tree, from, count);
        }
        Case::AddUses { graph, .. } | Case::WriteUses { graph, .. } => {
            match step {
                Step::Nodes(from, count) => drop_nodes(graph, from, count)?,
                Step::Edges(from, count) => drop_edges(graph, from, count)?,
                _ => return None,
            }
            if let (Case::AddUses { log, .. }, Step::Nodes(from, count)) = (&mut case, step) {
                (0..count).for_each(|_| number_log_anew(log, from));
            }
        }
        Case::Route { terms, .. } | Case::Audit { terms, .. } if matches!(step, Step::Terms) => {
            *terms = TERMS
        }
        Case::Audit { job, work, log, used, .. } => {
            drop_from_job(job, step)?;
            lend_without(step, used, log);
            if let Step::Nodes(_, count) = step {
                work.truncate(work.len().saturating_sub(8 * count));
            }
        }
        Case::Route { aimed, .. } if matches!(step, Step::Unaimed) => *aimed = false,
        Case::Route { job, log, used: Some(used), .. } if matches!(step, Step::Own(_)) => {
            let Step::Own(count) = step else { return None };
            lend_own(job, count, used, log)?;
        }
        Case::Route { job, work, log, used, .. } => {
            let own = used.and_then(|used| resumes::own_iterations(job, log.get(..used as usize)?));
            drop_from_job(job, step)?;
            match (own, used.as_mut()) {
                (Some(count), Some(used)) => lend_own(job, count, used, log)?,
                (None, Some(used)) => lend_without(step, used, log),
                (_, None) => {}
            }
            if let Step::Nodes(_, count) = step {
                work.truncate(work.len().saturating_sub(8 * count));
            }
        }
        Case::Read { text, .. } => {
            let mut job = read_back(text)?;
            drop_from_job(&mut job, step)?;
            *text = job::texts::text(&job);
        }
        _ => return None,
    }
    Some(case)
}

/// Puts so many iterations of the job's own log in the place of the words used.
fn lend_own(job: &Job, count: u32, used: &mut u64, log: &mut Vec<u32>) -> Option<()> {
    let own = resumes::own_log(job, count);
    let lent = log.get(..*used as usize)?;
    if own.is_empty() || own.len() > lent.len() {
        return None;
    }
    log.splice(..*used as usize, own.iter().copied());
    *used = own.len() as u64;
    Some(())
}

/// Takes the records of dropped nets out of the words used, and numbers nets and nodes anew. The costs stay.
fn lend_without(step: Step, used: &mut u64, log: &mut Vec<u32>) {
    let Some(lent) = log.get(..*used as usize) else { return };
    let mut words = lent.to_vec();
    match step {
        Step::Nets(from, count) => words = without_nets(lent, from as u32, count as u32),
        Step::Nodes(from, count) => (0..count).for_each(|_| number_log_anew(&mut words, from)),
        _ => return,
    }
    log.splice(..*used as usize, words.iter().copied());
    *used = words.len() as u64;
}

/// A log without the records of so many nets; later nets have numbers so much lower.
fn without_nets(log: &[u32], from: u32, count: u32) -> Vec<u32> {
    let places = crate::logs::records(log);
    let mut kept = Vec::new();
    for place in places.windows(2) {
        let mut record = log[place[0]..place[1]].to_vec();
        if record[1] < from || record[1] - from >= count {
            record[1] -= if record[1] < from { 0 } else { count };
            kept.extend(record);
        }
    }
    kept.extend(&log[places[places.len() - 1]..]);
    kept
}

fn drop_from_job(job: &mut Job, step: Step) -> Option<()> {
    match step {
        Step::Nodes(from, count) => drop_job_nodes(job, from, count),
        Step::Edges(from, count) => drop_edges(job, from, count),
        Step::Nets(from, count) => (0..count).try_for_each(|_| drop_net(job, from)),
        Step::Sinks(from, count) => (0..count).try_for_each(|_| drop_sink(job, from)),
        Step::Plain => (job.tuning != Tuning::PLAIN).then(|| job.tuning = Tuning::PLAIN),
        Step::Rule => (job.rule != PLAIN_RULE).then(|| job.rule = PLAIN_RULE),
        Step::Until => (job.until != PLAIN_UNTIL).then(|| job.until = PLAIN_UNTIL),
        Step::Untimed => job.is_timed().then(|| make_untimed(job)),
        _ => None,
    }
}

fn make_untimed(job: &mut Job) {
    job.timed = 0;
    job.delay.clear();
    job.criticality.clear();
}

/// Takes entries out, as far as they are there.
fn cut<T>(list: &mut Vec<T>, from: usize, count: usize) {
    let end = (from + count).min(list.len());
    list.drain(from.min(end)..end);
}

/// Takes one entry out of a list of rows and moves the later first places.
fn drop_place(first: &mut [u32], all: &mut Vec<u16>, place: usize) -> Option<()> {
    if place >= all.len() {
        return None;
    }
    all.remove(place);
    for entry in first.iter_mut().filter(|entry| **entry as usize > place) {
        *entry -= 1;
    }
    Some(())
}

fn drop_edges(graph: &mut Job, from: usize, count: usize) -> Option<()> {
    (0..count).try_for_each(|_| drop_place(&mut graph.first_edge, &mut graph.edge_target, from))
}

/// Drops a sink with its criticality.
fn drop_sink(job: &mut Job, place: usize) -> Option<()> {
    drop_place(&mut job.first_sink, &mut job.sink, place)?;
    cut(&mut job.criticality, place, 1);
    Some(())
}

/// Drops a net with its sinks.
fn drop_net(job: &mut Job, net: usize) -> Option<()> {
    let (from, end) = (*job.first_sink.get(net)? as usize, *job.first_sink.get(net + 1)? as usize);
    if net >= job.source.len() || from > end || end > job.sink.len() {
        return None;
    }
    for _ in from..end {
        drop_sink(job, from)?;
    }
    job.source.remove(net);
    job.first_sink.remove(net + 1);
    Some(())
}

/// Drops nodes with their rows and the edges to them, and numbers the later ones anew.
fn drop_nodes(graph: &mut Job, from: usize, count: usize) -> Option<()> {
    for _ in 0..count {
        drop_node(graph, from)?;
    }
    Some(())
}

fn drop_node(graph: &mut Job, node: usize) -> Option<()> {
    let (from, end) = (*graph.first_edge.get(node)? as usize, *graph.first_edge.get(node + 1)? as usize);
    if node >= graph.kind.len() || node >= graph.capacity.len() || from > end || end > graph.edge_target.len()
    {
        return None;
    }
    drop_edges(graph, from, end - from)?;
    while let Some(place) = graph.edge_target.iter().position(|to| *to as usize == node) {
        drop_edges(graph, place, 1)?;
    }
    number_anew(&mut graph.edge_target, node);
    graph.kind.remove(node);
    graph.capacity.remove(node);
    cut(&mut graph.delay, node, 1);
    graph.first_edge.remove(node + 1);
    Some(())
}

/// Lowers the numbers above a dropped node's.
fn number_anew<T: Copy + Into<u64> + TryFrom<u64>>(list: &mut [T], node: usize) {
    for entry in list.iter_mut().filter(|entry| wide(**entry) > node as u64) {
        reduce(entry, wide(*entry) - 1);
    }
}

/// The same of the sinks and paths of a stored log.
fn number_log_anew(log: &mut [u32], node: usize) {
    for place in crate::logs::records(log).windows(2) {
        number_anew(&mut log[place[0] + 2..=place[0] + 2], node);
        number_anew(&mut log[place[0] + 6..place[1]], node);
    }
}

/// Drops nodes of a job, with the nets that start there and the sinks there.
fn drop_job_nodes(job: &mut Job, from: usize, count: usize) -> Option<()> {
    for _ in 0..count {
        while let Some(net) = job.source.iter().position(|source| *source as usize == from) {
            drop_net(job, net)?;
        }
        while let Some(place) = job.sink.iter().position(|sink| *sink as usize == from) {
            drop_sink(job, place)?;
        }
        drop_node(job, from)?;
        number_anew(&mut job.source, from);
        number_anew(&mut job.sink, from);
    }
    Some(())
}

/// A case with a graph of this pattern.
macro_rules! with_graph {
    ($graph:pat) => {
        Case::Search { graph: $graph, .. }
            | Case::AddUses { graph: $graph, .. }
            | Case::WriteUses { graph: $graph, .. }
    };
}

/// A case with a job of this pattern.
macro_rules! with_job {
    ($job:pat) => {
        Case::Route { job: $job, .. } | Case::Audit { job: $job, .. }
    };
}

/// Calls something with the slice of a case that has a number.
macro_rules! with_slice {
    ($case:expr, $number:expr, $slice:ident => $body:expr) => {
        match ($case, $number) {
            (with_graph!(Job { kind: $slice, .. }), 0) => $body,
            (with_graph!(Job { capacity: $slice, .. }), 1) => $body,
            (with_graph!(Job { first_edge: $slice, .. }), 2) => $body,
            (with_graph!(Job { edge_target: $slice, .. }), 3) => $body,
            (Case::Search { work: $slice, .. }, 4) => $body,
            (Case::Search { history: $slice, .. }, 5) => $body,
            (Case::Search { others: $slice, .. }, 6) => $body,
            (Case::Search { in_tree: $slice, .. }, 7) => $body,
            (Case::Search { graph: Job { delay: $slice, .. }, .. }, _) => $body,
            (with_job!(Job { kind: $slice, .. }), 0) => $body,
            (with_job!(Job { capacity: $slice, .. }), 1) => $body,
            (with_job!(Job { first_edge: $slice, .. }), 2) => $body,
            (with_job!(Job { edge_target: $slice, .. }), 3) => $body,
            (with_job!(Job { source: $slice, .. }), 4) => $body,
            (with_job!(Job { first_sink: $slice, .. }), 5) => $body,
            (with_job!(Job { sink: $slice, .. }), 6) => $body,
            (Case::Route { work: $slice, .. } | Case::Audit { work: $slice, .. }, 7) => $body,
            (Case::Route { log: $slice, .. } | Case::Audit { log: $slice, .. }, 8) => $body,
            (with_job!(Job { delay: $slice, .. }), 9) => $body,
            (with_job!(Job { criticality: $slice, .. }), _) => $body,
            (Case::Read { text: $slice, .. }, 0) => $body,
            (Case::Read { tables: Job { kind: $slice, .. }, .. }, 1) => $body,
            (Case::Read { tables: Job { capacity: $slice, .. }, .. }, 2) => $body,
            (Case::Read { tables: Job { first_edge: $slice, .. }, .. }, 3) => $body,
            (Case::Read { tables: Job { edge_target: $slice, .. }, .. }, 4) => $body,
            (Case::Read { tables: Job { source: $slice, .. }, .. }, 5) => $body,
            (Case::Read { tables: Job { first_sink: $slice, .. }, .. }, 6) => $body,
            (Case::Read { tables: Job { sink: $slice, .. }, .. }, 7) => $body,
            (Case::Read { tables: Job { delay: $slice, .. }, .. }, 8) => $body,
            (Case::Read { tables: Job { criticality: $slice, .. }, .. }, _) => $body,
            (Case::Write { source: $slice, .. }, 0) => $body,
            (Case::Write { log: $slice, .. }, 1) => $body,
            (Case::Write { buffer: $slice, .. }, _) => $body,
            (Case::AddUses { counts: $slice, .. } | Case::WriteUses { counts: $slice, .. }, 4) => $body,
            (Case::AddUses { log: $slice, .. }, _) => $body,
            (Case::WriteUses { buffer: $slice, .. }, _) => $body,
            (Case::Price { .. }, _) => unreachable!("the price is lent no slice"),
        }
    };
}

fn slice_count(case: &Case) -> usize {
    match case {
        Case::Price { .. } => 0,
        Case::Search { criticality, .. } => 8 + usize::from(criticality.is_some()),
        Case::Route { .. } | Case::Audit { .. } => 11,
        Case::Read { .. } => 10,
        Case::Write { .. } => 3,
        Case::AddUses { .. } | Case::WriteUses { .. } => 6,
    }
}

fn slice_length(case: &Case, number: usize) -> usize {
    with_slice!(case, number, slice => slice.len())
}

/// An entry of any slice in 64 bits.
fn wide<T: Into<u64>>(entry: T) -> u64 {
    entry.into()
}

fn entry(case: &Case, number: usize, place: usize) -> u64 {
    with_slice!(case, number, slice => wide(slice[place]))
}

fn cut_slice(case: &mut Case, number: usize, from: usize, count: usize) -> Option<()> {
    with_slice!(case, number, slice => {
        if from + count > slice.len() {
            return None;
        }
        cut(slice, from, count);
    });
    Some(())
}

fn set_entry(case: &mut Case, number: usize, place: usize, value: u64) -> Option<()> {
    with_slice!(case, number, slice => reduce(slice.get_mut(place)?, value))
}

/// Gives an entry a lower value.
fn reduce<T: Copy + Into<u64> + TryFrom<u64>>(entry: &mut T, value: u64) -> Option<()> {
    if value >= wide(*entry) {
        return None;
    }
    *entry = value.try_into().ok()?;
    Some(())
}

fn fill_slice(case: &mut Case, number: usize) {
    with_slice!(case, number, slice => slice.fill(7));
}

/// How many single numbers of a job may be lowered: the limit, and the tuning's unless it is the plain one.
fn lowered(job: &Job) -> usize {
    if job.tuning == Tuning::PLAIN {
        1
    } else {
        5
    }
}

/// The single numbers of a case.
fn numbers(case: &Case) -> Vec<u64> {
    match case {
        Case::Price { kind, factor, others, capacity, history, timing } => {
            let numbers = [*kind, *factor, *others, *capacity, *history];
            numbers.into_iter().chain(timing.iter().flatten().copied()).map(u64::from).collect()
        }
        Case::Search { factor, criticality, .. } => {
            [Some(*factor), *criticality].into_iter().flatten().map(u64::from).collect()
        }
        Case::AddUses { logs, .. } | Case::WriteUses { logs, .. } => vec![*logs],
        Case::Route { job, used, .. } => {
            let terms = job.terms().into_iter().take(lowered(job)).map(u64::from);
            terms.chain(*used).collect()
        }
        Case::Audit { job, used, .. } => {
            let terms = job.terms().into_iter().take(lowered(job)).map(u64::from);
            terms.chain([*used]).collect()
        }
        _ => Vec::new(),
    }
}

fn set_number(case: &mut Case, number: usize, value: u64) -> Option<()> {
    let place = match case {
        Case::Price { kind, factor, others, capacity, history, timing } => {
            [kind, factor, others, capacity, history]
                .into_iter()
                .chain(timing.iter_mut().flatten())
                .nth(number)?
        }
        Case::Search { factor, criticality, .. } => [factor].into_iter().chain(criticality).nth(number)?,
        Case::AddUses { logs, .. } | Case::WriteUses { logs, .. } => return reduce(logs, value),
        Case::Route { job, used, .. } if number == lowered(job) => return reduce(used.as_mut()?, value),
        Case::Audit { job, used, .. } if number == lowered(job) => return reduce(used, value),
        // the tuning is the plain one since the steps were listed: it stays
        with_job!(job) if number > lowered(job) => return None,
        with_job!(Job { limit, tuning: Tuning { first, up, down, step }, .. }) => {
            [limit, first, up, down, step].into_iter().nth(number)?
        }
        _ => return None,
    };
    reduce(place, value)
}

/// A case as Rust text.
pub fn literal(case: &Case) -> String {
    let names: &[(&str, &str)] = match case {
        Case::Price { .. } => &[],
        Case::Search { .. } => &[
            ("kind", "u8"),
            ("capacity", "u8"),
            ("first_edge", "u32"),
            ("edge_target", "u16"),
            ("mut work", "u64"),
            ("history", "u32"),
            ("others", "u16"),
            ("in_tree", "u8"),
            ("delay", "u16"),
        ],
        Case::Route { .. } | Case::Audit { .. } => &[
            ("kind", "u8"),
            ("capacity", "u8"),
            ("first_edge", "u32"),
            ("edge_target", "u16"),
            ("source", "u16"),
            ("first_sink", "u32"),
            ("sink", "u16"),
            ("mut work", "u64"),
            ("mut log", "u32"),
            ("delay", "u16"),
            ("criticality", "u8"),
        ],
        Case::Read { .. } => &[
            ("text", "u8"),
            ("mut kind", "u8"),
            ("mut capacity", "u8"),
            ("mut first_edge", "u32"),
            ("mut edge_target", "u16"),
            ("mut source", "u16"),
            ("mut first_sink", "u32"),
            ("mut sink", "u16"),
            ("mut delay", "u16"),
            ("mut criticality", "u8"),
        ],
        Case::Write { .. } => &[("source", "u16"), ("log", "u32"), ("mut buffer", "u8")],
        Case::AddUses { .. } => &[
            ("kind", "u8"),
            ("capacity", "u8"),
            ("first_edge", "u32"),
            ("edge_target", "u16"),
            ("mut counts", "u64"),
            ("log", "u32"),
        ],
        Case::WriteUses { .. } => &[
            ("kind", "u8"),
            ("capacity", "u8"),
            ("first_edge", "u32"),
            ("edge_target", "u16"),
            ("counts", "u64"),
            ("mut buffer", "u8"),
        ],
    };
    let mut text = String::new();
    for (number, (name, kind)) in names.iter().enumerate().take(slice_count(case)) {
        let entries: Vec<u64> = with_slice!(case, number, slice => slice.iter().copied().map(wide).collect());
        text += &format!("let {name}: [{kind}; {}] = {};\n", entries.len(), list(name, &entries));
    }
    text + call(case).as_str()
}

/// A slice as Rust text.
fn list(name: &str, entries: &[u64]) -> String {
    if name == "text" {
        let bytes: Vec<u8> = entries.iter().map(|entry| *entry as u8).collect();
        return format!("*b\"{}\"", bytes.escape_ascii());
    }
    match entries {
        [first, rest @ ..] if rest.len() > 2 && rest.iter().all(|entry| entry == first) => {
            format!("[{first}; {}]", entries.len())
        }
        _ => format!("{entries:?}"),
    }
}

/// The call itself.
fn call(case: &Case) -> String {
    match case {
        Case::Price { kind, factor, others, capacity, history, timing: None } => {
            format!("price({kind}, {factor}, {others}, {capacity}, {history})")
        }
        Case::Price { kind, factor, others, capacity, history, timing: Some([delay, criticality]) } => {
            format!("timed_price({kind}, {factor}, {others}, {capacity}, {history}, {delay}, {criticality})")
        }
        Case::Search { factor, criticality: None, .. } => format!(
            "search(&kind, &capacity, &first_edge, &edge_target, {factor}, &mut work, &history, &others, &in_tree)"
        ),
        Case::Search { factor, criticality: Some(criticality), .. } => format!(
            "timed_search(&kind, &capacity, &first_edge, &edge_target, &delay, {factor}, {criticality}, &mut work, &history, &others, &in_tree)"
        ),
        Case::Route { job, terms, used, aimed, .. } => {
            let (name, terms) = (if used.is_some() { "resume" } else { "route" }, lent_terms(job, *terms));
            let name = format!("{name}{}", if *aimed { "_aimed" } else { "" });
            let used = used.map_or(String::new(), |used| format!("{used}, "));
            format!(
                "{name}(&kind, &capacity, &first_edge, &edge_target, &source, &first_sink, &sink, &delay, &criticality, &{terms:?}, {used}&mut work, &mut log)"
            )
        }
        Case::Audit { job, terms, used, .. } => {
            let terms = lent_terms(job, *terms);
            format!(
                "audit(&kind, &capacity, &first_edge, &edge_target, &source, &first_sink, &sink, &delay, &criticality, &{terms:?}, {used}, &mut work, &log)"
            )
        }
        Case::Read { .. } => String::from(
            "read(&text, &mut kind, &mut capacity, &mut first_edge, &mut edge_target, &mut source, &mut first_sink, &mut sink, &mut delay, &mut criticality)",
        ),
        Case::Write { picture, .. } => {
            let name = if *picture { "dot" } else { "write" };
            format!("{name}(&source, &log, &mut buffer)")
        }
        Case::AddUses { logs, .. } => {
            format!("uses_add(&kind, &capacity, &first_edge, &edge_target, &mut counts, {logs}, &log)")
        }
        Case::WriteUses { logs, .. } => {
            format!("uses_write(&kind, &capacity, &first_edge, &edge_target, &counts, {logs}, &mut buffer)")
        }
    }
}

#[cfg(all(test, not(feature = "library")))]
mod tests {
    use super::*;
    use crate::compare::inject::FAULT;
    use crate::run::{examine, Failure, Run};
    use std::sync::atomic::Ordering;

    /// The first failure of many seeds.
    fn first_failure() -> Option<Failure> {
        let mut run = Run::new();
        (0..2_000).find_map(|seed| run.job(seed).and_then(|()| run.text(seed)).err())
    }

    /// The smallest form of the first failure under a fault put in.
    fn smallest(fault: u32) -> Case {
        FAULT.store(fault, Ordering::Relaxed);
        let failure = first_failure().expect("the fault shows");
        let smallest = shrink(&failure.case, &|case| examine(case, failure.out).is_err());
        assert!(examine(&smallest, failure.out).is_err());
        println!("fault {fault}:\n{}\n", literal(&smallest));
        smallest
    }

    fn timed_faults_are_made_small() {
        let Case::Price { timing: Some([1, 9]), history: 1, .. } = smallest(24) else { panic!("fault 24") };
        let Case::Search { graph, criticality: Some(10), .. } = smallest(25) else { panic!("fault 25") };
        assert!(graph.kind.len() == 1 && graph.edge_target.is_empty());
        let Case::Route { job, work, log, .. } = smallest(26) else { panic!("fault 26") };
        assert!(
            job.is_timed() && job.kind.len() <= 3 && job.sink.len() == 1 && work.is_empty() && log.is_empty()
        );
        let Case::Route { job, .. } = smallest(27) else { panic!("fault 27") };
        assert!(job.is_timed() && job.kind.len() == 3 && job.sink.len() == 2 && job.limit == 1);
        let Case::Read { text, tables } = smallest(28) else { panic!("fault 28") };
        assert!(text.len() < 70 && tables.delay.is_empty(), "{}", text.escape_ascii());
        let Case::Read { text, .. } = smallest(29) else { panic!("fault 29") };
        assert!(text.starts_with(b"F,2,0,1,41\nW\n") && text.len() < 50, "{}", text.escape_ascii());
        let Case::Route { job, used, .. } = smallest(30) else { panic!("fault 30") };
        assert!(job.is_timed() && job.source.len() <= 2 && used.is_some_and(|used| used <= 20));
    }

    fn aimed_faults_are_made_small() {
        let Case::Route { job, used: None, aimed: true, .. } = smallest(31) else { panic!("fault 31") };
        assert!(job.kind.len() <= 3 && job.sink.len() == 1 && job.limit == 1);
        let Case::Route { job, used: Some(used), aimed: true, .. } = smallest(32) else { panic!("fault 32") };
        assert!(job.limit == 2 && job.source.len() == 2 && used <= 18);
        let Case::Route { job, used: None, aimed: true, log, .. } = smallest(33) else { panic!("fault 33") };
        assert!(job.limit <= 2 && job.kind.len() <= 4 && log.len() == 8);
        let Case::Route { job, aimed: true, .. } = smallest(34) else { panic!("fault 34") };
        assert!(job.is_timed() && job.kind.len() <= 4 && job.sink.len() == 1);
        let Case::Route { job, aimed: true, log, .. } = smallest(35) else { panic!("fault 35") };
        assert!(job.kind.len() == 2 && job.edge_target.is_empty() && log.is_empty());
    }

    /// A finding rests on costs in the log, which the shrinker leaves: of such a case it takes what comes after the turn told, no more.
    fn audit_faults_are_made_small() {
        let Case::Audit { job, used, log, .. } = smallest(38) else { panic!("fault 38") };
        assert!(job.limit <= 2 && job.rule == 1 && used as usize <= log.len() && log.len() <= 170);
        let Case::Audit { job, used, log, .. } = smallest(39) else { panic!("fault 39") };
        assert!(job.is_timed() && used as usize <= log.len() && log.len() <= 170);
        let Case::Audit { job, used, .. } = smallest(40) else { panic!("fault 40") };
        assert!(job.limit == 1 && job.rule == 1 && used <= 100);
    }

    /// The library's own ends are set beside each other before plain's, and the fault is told so.
    fn faults_beside_itself_are_made_small() {
        let told = |case: &Case| examine(case, None).expect_err("it still fails");
        let case = smallest(36);
        assert!(told(&case).starts_with("an aimed call doesn't end as the plain one"), "{}", told(&case));
        let Case::Route { job, aimed: true, .. } = &case else { panic!("fault 36") };
        assert!(job.kind.len() <= 3 && job.sink.len() == 1 && job.limit == 1);
        let case = smallest(20);
        assert!(told(&case).starts_with("a resume from the job's own log doesn't end"), "{}", told(&case));
        let case = smallest(37);
        assert!(told(&case).starts_with("a log adds "), "{}", told(&case));
        let Case::AddUses { graph, logs: 1, log, .. } = &case else { panic!("fault 37") };
        assert!(graph.kind.len() == 1 && log.len() == 8);
    }

    /// One test for all faults, since they are put in for all threads.
    #[test]
    fn faults_are_found_and_made_small() {
        let Case::Route { job, log, .. } = smallest(1) else { panic!("fault 1") };
        assert!(job.kind.len() <= 4 && job.source.len() <= 2 && job.limit == 3 && log.len() <= 60);
        assert!(job.tuning == Tuning::PLAIN);
        let Case::Route { job, work, log, .. } = smallest(2) else { panic!("fault 2") };
        assert!(job.kind.len() == 2 && job.source.is_empty() && work.is_empty() && log.is_empty());
        let Case::Read { text, tables } = smallest(3) else { panic!("fault 3") };
        assert!(text == b"\r" && tables.kind.is_empty());
        let Case::Read { text, .. } = smallest(4) else { panic!("fault 4") };
        assert!(text.len() < 80);
        let Case::Write { log, .. } = smallest(5) else { panic!("fault 5") };
        assert!(log.len() == 21 || log.len() == 22 || log.len() == 24);
        let Case::Search { graph, .. } = smallest(6) else { panic!("fault 6") };
        assert!(graph.kind.len() <= 5 && graph.edge_target.is_empty());
        let Case::Price { kind: 0, factor: 65_535, others: 0, capacity: 1, history: 1, timing } = smallest(7)
        else {
            panic!("fault 7")
        };
        assert!(matches!(timing, None | Some([0, 0])));
        let Case::Route { job, .. } = smallest(8) else { panic!("fault 8") };
        assert!(job.limit == 2 && job.tuning == Tuning { first: 0, up: 1, down: 1, step: 2 });
        let Case::Read { text, .. } = smallest(9) else { panic!("fault 9") };
        assert!(text.starts_with(b"F,1,0,1,1\nP,") && text.len() <= 20, "{}", text.escape_ascii());
        let Case::Route { job, .. } = smallest(10) else { panic!("fault 10") };
        assert!(job.kind[0] == 1 && job.kind.len() <= 2 && job.source == [0] && job.sink.is_empty());
        let Case::Route { job, .. } = smallest(11) else { panic!("fault 11") };
        assert!(job.source.len() == 2 && job.source[0] == job.source[1] && job.edge_target.is_empty());
        let Case::Write { source, log, .. } = smallest(12) else { panic!("fault 12") };
        assert!(source.len() == 2 && source[0] == source[1] && log.len() == 8);
        let Case::Route { job, .. } = smallest(13) else { panic!("fault 13") };
        assert!(job.rule == 2 && job.limit == 2 && job.tuning == Tuning::PLAIN && job.source.len() == 3);
        let Case::Read { text, .. } = smallest(14) else { panic!("fault 14") };
        assert!(text.starts_with(b"F,1,0,1,1\nV,") && text.len() <= 14, "{}", text.escape_ascii());
        let Case::Write { log, .. } = smallest(15) else { panic!("fault 15") };
        assert!(log.len() == 16);
        let Case::Route { job, terms, .. } = smallest(16) else { panic!("fault 16") };
        assert!(terms == 5 && job.limit == 2 && job.rule == 1);
        let Case::AddUses { graph, counts, log, .. } = smallest(17) else { panic!("fault 17") };
        assert!(graph.kind.len() <= 2 && counts == [0; 54] && log.len() == 16);
        let Case::AddUses { graph, counts, log, .. } = smallest(18) else { panic!("fault 18") };
        assert!(graph.kind.len() == 1 && counts == [0; 54] && log.is_empty());
        let Case::WriteUses { graph, counts, logs, buffer } = smallest(19) else { panic!("fault 19") };
        assert!(graph.kind.len() == 1 && counts == [0; 54] && logs == 65_536 && buffer.is_empty());
        let Case::Route { job, used, .. } = smallest(20) else { panic!("fault 20") };
        assert!(job.limit == 2 && job.source.len() == 2 && used.is_some_and(|used| used <= 18));
        let Case::Route { used, log, .. } = smallest(21) else { panic!("fault 21") };
        assert!(used.is_some_and(|used| used as usize <= log.len()) && log.len() <= 9);
        let Case::Route { used, .. } = smallest(22) else { panic!("fault 22") };
        assert!(used.is_some_and(|used| used <= 20));
        let Case::Route { job, used, .. } = smallest(23) else { panic!("fault 23") };
        assert!(job.rule == 2 && job.until > 1 && job.limit == 2 && used.is_some_and(|used| used <= 18));
        timed_faults_are_made_small();
        aimed_faults_are_made_small();
        audit_faults_are_made_small();
        faults_beside_itself_are_made_small();
        FAULT.store(0, Ordering::Relaxed);
        assert!(first_failure().is_none());
    }
}
