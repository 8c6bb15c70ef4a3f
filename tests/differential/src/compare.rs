//! Runs one call on both sides, on equal copies of all lent slices, and compares what comes back.

#[cfg(feature = "library")]
use arvumnao::raw;

use crate::itself;
use job::Job;

/// A call's refusal and own numbers, of either side.
#[derive(Clone, Debug, PartialEq, Eq)]
pub struct Answer {
    pub refusal: Vec<u64>,
    pub numbers: Vec<u64>,
}

/// One call with all that is lent to it: the search and the calls about uses have a job's graph, tables 1 to 4, the reader the tables that it
/// fills. A price with delay and criticality and a search with a criticality are timed; the search has table 9 then. The router is lent so
/// many of the job's terms; where the words used of the log are told, it resumes; its search aims or is the plain one. An audit only reads its
/// log. The writer writes the routes text, or the picture.
#[derive(Clone, Debug, PartialEq, Eq)]
pub enum Case {
    Price {
        kind: u32,
        factor: u32,
        others: u32,
        capacity: u32,
        history: u32,
        timing: Option<[u32; 2]>,
    },
    Search {
        graph: Job,
        factor: u32,
        criticality: Option<u32>,
        work: Vec<u64>,
        history: Vec<u32>,
        others: Vec<u16>,
        in_tree: Vec<u8>,
    },
    Route {
        job: Job,
        terms: usize,
        used: Option<u64>,
        aimed: bool,
        work: Vec<u64>,
        log: Vec<u32>,
    },
    Audit {
        job: Job,
        terms: usize,
        used: u64,
        work: Vec<u64>,
        log: Vec<u32>,
    },
    Read {
        text: Vec<u8>,
        tables: Job,
    },
    Write {
        picture: bool,
        source: Vec<u16>,
        log: Vec<u32>,
        buffer: Vec<u8>,
    },
    AddUses {
        graph: Job,
        counts: Vec<u64>,
        logs: u64,
        log: Vec<u32>,
    },
    WriteUses {
        graph: Job,
        counts: Vec<u64>,
        logs: u64,
        buffer: Vec<u8>,
    },
}

/// Whether the call does nothing, for its counts are too short.
pub fn idle(case: &Case) -> bool {
    matches!(case, Case::AddUses { counts, .. } | Case::WriteUses { counts, .. } if counts.len() < plain::KINDS)
}

/// How many own numbers a call has.
pub fn own(case: &Case) -> usize {
    match case {
        Case::AddUses { .. } | Case::WriteUses { .. } => usize::from(!idle(case)),
        Case::Price { .. } | Case::Write { .. } => 1,
        Case::Search { .. } => 0,
        Case::Route { aimed, .. } => 3 + usize::from(*aimed),
        Case::Audit { .. } => 4,
        Case::Read { .. } => 12,
    }
}

/// What the router is lent as its terms: so many of the job's, and past those entries that are not read.
pub fn lent_terms(job: &Job, count: usize) -> Vec<u32> {
    let terms = job.terms();
    (0..count).map(|place| terms.get(place).copied().unwrap_or(0xa8a8_a8a8)).collect()
}

/// The job as the router takes it, with plain values for terms that it isn't lent.
pub fn taken(job: &Job, count: usize) -> Job {
    let mut taken = job.clone();
    taken.take_terms(&lent_terms(job, count));
    taken
}

/// Entries past the end of every slice that a call may write to, to see that it doesn't.
const GUARD: usize = 2;

/// The slice lent, without its guard.
fn lend<T>(slice: &mut [T]) -> &mut [T] {
    let length = slice.len() - GUARD;
    &mut slice[..length]
}

/// Puts a guard behind a slice.
fn widen<T: Copy>(slice: &mut Vec<T>, entry: T) {
    slice.extend([entry; GUARD]);
}

/// Takes the guard away again, which must be as it was.
fn narrow<T: Copy + PartialEq>(slice: &mut Vec<T>, entry: T) {
    let guard = slice.split_off(slice.len() - GUARD);
    assert!(guard.iter().all(|one| *one == entry), "a call wrote past the end of a slice");
}

/// Does the same to every slice of a case that a call may write to.
macro_rules! guards {
    ($name:ident, $one:ident) => {
        fn $name(case: &mut Case) {
            match case {
                Case::Price { .. } => {}
                Case::Search { work, .. } | Case::Audit { work, .. } => $one(work, 77),
                Case::Route { work, log, .. } => {
                    $one(work, 77);
                    $one(log, 77);
                }
                Case::Read { tables, .. } => {
                    $one(&mut tables.kind, 77);
                    $one(&mut tables.capacity, 77);
                    $one(&mut tables.first_edge, 77);
                    $one(&mut tables.edge_target, 77);
                    $one(&mut tables.source, 77);
                    $one(&mut tables.first_sink, 77);
                    $one(&mut tables.sink, 77);
                    $one(&mut tables.delay, 77);
                    $one(&mut tables.criticality, 77);
                }
                Case::Write { buffer, .. } | Case::WriteUses { buffer, .. } => $one(buffer, 77),
                Case::AddUses { counts, .. } => $one(counts, 77),
            }
        }
    };
}

guards!(widen_all, widen);
guards!(narrow_all, narrow);

/// A case's call of one side, with the case's own slices; the library's takes `out` too.
macro_rules! call {
    ($side:ident, $case:ident $(, $out:ident)?) => {
        match $case {
            Case::Price { kind, factor, others, capacity, history, timing: None } => {
                $side::price(*kind, *factor, *others, *capacity, *history $(, $out)?)
            }
            Case::Price { kind, factor, others, capacity, history, timing: Some([delay, criticality]) } => {
                $side::timed_price(*kind, *factor, *others, *capacity, *history, *delay, *criticality $(, $out)?)
            }
            Case::Search { graph, factor, criticality: None, work, history, others, in_tree } => $side::search(
                &graph.kind,
                &graph.capacity,
                &graph.first_edge,
                &graph.edge_target,
                *factor,
                lend(work),
                history,
                others,
                in_tree,
                $($out)?
            ),
            Case::Search { graph, factor, criticality: Some(criticality), work, history, others, in_tree } => {
                $side::timed_search(
                    &graph.kind,
                    &graph.capacity,
                    &graph.first_edge,
                    &graph.edge_target,
                    &graph.delay,
                    *factor,
                    *criticality,
                    lend(work),
                    history,
                    others,
                    in_tree,
                    $($out)?
                )
            }
            Case::Route { job, terms, used: None, aimed, work, log } => {
                let route = if *aimed { $side::route_aimed } else { $side::route };
                route(
                    &job.kind,
                    &job.capacity,
                    &job.first_edge,
                    &job.edge_target,
                    &job.source,
                    &job.first_sink,
                    &job.sink,
                    &job.delay,
                    &job.criticality,
                    &lent_terms(job, *terms),
                    lend(work),
                    lend(log),
                    $($out)?
                )
            }
            Case::Route { job, terms, used: Some(used), aimed, work, log } => {
                let resume = if *aimed { $side::resume_aimed } else { $side::resume };
                resume(
                    &job.kind,
                    &job.capacity,
                    &job.first_edge,
                    &job.edge_target,
                    &job.source,
                    &job.first_sink,
                    &job.sink,
                    &job.delay,
                    &job.criticality,
                    &lent_terms(job, *terms),
                    *used,
                    lend(work),
                    lend(log),
                    $($out)?
                )
            }
            Case::Audit { job, terms, used, work, log } => $side::audit(
                &job.kind,
                &job.capacity,
                &job.first_edge,
                &job.edge_target,
                &job.source,
                &job.first_sink,
                &job.sink,
                &job.delay,
                &job.criticality,
                &lent_terms(job, *terms),
                *used,
                lend(work),
                log,
                $($out)?
            ),
            Case::Read { text, tables } => $side::read(
                text,
                lend(&mut tables.kind),
                lend(&mut tables.capacity),
                lend(&mut tables.first_edge),
                lend(&mut tables.edge_target),
                lend(&mut tables.source),
                lend(&mut tables.first_sink),
                lend(&mut tables.sink),
                lend(&mut tables.delay),
                lend(&mut tables.criticality),
                $($out)?
            ),
            Case::Write { picture: false, source, log, buffer } => $side::write(source, log, lend(buffer) $(, $out)?),
            Case::Write { picture: true, source, log, buffer } => $side::dot(source, log, lend(buffer) $(, $out)?),
            Case::AddUses { graph, counts, logs, log } => $side::uses_add(
                &graph.kind,
                &graph.capacity,
                &graph.first_edge,
                &graph.edge_target,
                lend(counts),
                *logs,
                log,
                $($out)?
            ),
            Case::WriteUses { graph, counts, logs, buffer } => $side::uses_write(
                &graph.kind,
                &graph.capacity,
                &graph.first_edge,
                &graph.edge_target,
                counts,
                *logs,
                lend(buffer),
                $($out)?
            ),
        }
    };
}

fn run_plain(case: &mut Case) -> Answer {
    widen_all(case);
    let answer = call!(plain, case);
    narrow_all(case);
    Answer { refusal: answer.refusal, numbers: answer.numbers }
}

/// The library's call with an `out` of any length; what it returns.
#[cfg(feature = "library")]
fn raw_call(case: &mut Case, out: &mut [u64]) -> u32 {
    widen_all(case);
    let returned = call!(raw, case, out);
    narrow_all(case);
    returned
}

#[cfg(feature = "library")]
fn run_library(case: &mut Case) -> Answer {
    let mut out = [0xa5a5; raw::OUT];
    let returned = raw_call(case, &mut out);
    if idle(case) {
        assert_eq!(
            (returned, out),
            (0, [0xa5a5; raw::OUT]),
            "the library did something though counts are short"
        );
        return Answer { refusal: Vec::new(), numbers: Vec::new() };
    }
    assert_eq!(returned, 1, "the library did nothing though out has {} entries", raw::OUT);
    let (refusal, own) = (raw::refusal(&out), raw::OWN..raw::OWN + own(case));
    Answer { refusal: refusal.to_vec(), numbers: out[own].to_vec() }
}

#[cfg(not(feature = "library"))]
fn run_library(case: &mut Case) -> Answer {
    let before = case.clone();
    let answer = run_plain(case);
    inject::inject(&before, case, answer)
}

/// What a call leaves behind: its answer and every lent slice.
#[derive(Clone, Debug, PartialEq, Eq)]
pub struct After {
    pub answer: Answer,
    pub case: Case,
}

/// The plain side's end of a call.
pub fn plain(case: &Case) -> After {
    let mut copy = case.clone();
    let answer = run_plain(&mut copy);
    After { answer, case: copy }
}

/// The library side's end of a call.
pub fn of_library(case: &Case) -> After {
    let mut copy = case.clone();
    let answer = run_library(&mut copy);
    After { answer, case: copy }
}

/// Both sides' common end of a call, or what is wrong with it. The library's is first set beside others of its own.
pub fn compare(case: &Case) -> Result<After, String> {
    let other = of_library(case);
    itself::check(case, &other)?;
    let one = plain(case);
    if one.answer != other.answer {
        return Err(format!("answers differ\n  plain:   {:?}\n  library: {:?}", one.answer, other.answer));
    }
    if one.case != other.case {
        return Err(unequal_slices(&one, &other));
    }
    memory(case, &other)?;
    check(&other)?;
    #[cfg(feature = "library")]
    crate::wrapper::check(case, &other)?;
    Ok(other)
}

/// Says that slices differ, with the first places.
fn unequal_slices(one: &After, other: &After) -> String {
    let mut text = format!("slices differ, both answer {:?}", one.answer);
    let pairs = slices(&one.case).into_iter().zip(slices(&other.case));
    for ((name, plain), (_, library)) in pairs {
        if let Some(place) = (0..plain.len()).find(|place| plain[*place] != library[*place]) {
            text += &format!("\n  {name}[{place}]: plain {}, library {}", plain[place], library[place]);
        }
    }
    text
}

/// Every lent slice with its name.
fn slices(case: &Case) -> Vec<(&'static str, Vec<u64>)> {
    match case {
        Case::Price { .. } => Vec::new(),
        Case::Search { graph, work, history, others, in_tree, .. } => {
            let mut list = graph_slices(graph);
            list.extend([
                ("work", work.clone()),
                ("history", wide(history)),
                ("others", wide(others)),
                ("in_tree", wide(in_tree)),
                ("delay", wide(&graph.delay)),
            ]);
            list
        }
        Case::Route { job, work, log, .. } | Case::Audit { job, work, log, .. } => {
            let mut list = job_slices(job);
            list.extend([("work", work.clone()), ("log", wide(log))]);
            list
        }
        Case::Read { text, tables } => {
            let mut list = vec![("text", wide(text))];
            list.extend(job_slices(tables));
            list
        }
        Case::Write { source, log, buffer, .. } => {
            vec![("source", wide(source)), ("log", wide(log)), ("buffer", wide(buffer))]
        }
        Case::AddUses { graph, counts, log, .. } => {
            let mut list = graph_slices(graph);
            list.extend([("counts", counts.clone()), ("log", wide(log))]);
            list
        }
        Case::WriteUses { graph, counts, buffer, .. } => {
            let mut list = graph_slices(graph);
            list.extend([("counts", counts.clone()), ("buffer", wide(buffer))]);
            list
        }
    }
}

fn graph_slices(graph: &Job) -> Vec<(&'static str, Vec<u64>)> {
    vec![
        ("kind", wide(&graph.kind)),
        ("capacity", wide(&graph.capacity)),
        ("first_edge", wide(&graph.first_edge)),
        ("edge_target", wide(&graph.edge_target)),
    ]
}

fn job_slices(job: &Job) -> Vec<(&'static str, Vec<u64>)> {
    let mut list = graph_slices(job);
    list.extend([
        ("source", wide(&job.source)),
        ("first_sink", wide(&job.first_sink)),
        ("sink", wide(&job.sink)),
        ("delay", wide(&job.delay)),
        ("criticality", wide(&job.criticality)),
    ]);
    list
}

fn wide<T: Copy + Into<u64>>(slice: &[T]) -> Vec<u64> {
    slice.iter().map(|entry| (*entry).into()).collect()
}

/// What 01's table says about memory, whatever both sides agree on.
fn memory(before: &Case, after: &After) -> Result<(), String> {
    let refusal = after.answer.refusal.first().copied().unwrap_or(0);
    let kept = match (before, &after.case) {
        (
            Case::Route { job, used, work, log, .. },
            Case::Route { job: job_after, work: work_after, log: log_after, .. },
        ) if matches!(refusal, 0 | 7 | 8 | 9 | 14) => {
            let words = after.answer.numbers[2] as usize;
            let lent = used.map_or(0, |used| words.min(used as usize));
            job == job_after
                && cleared(work, work_after, 0, 8 * job.kind.len())
                && log[..lent] == log_after[..lent]
                && log[words..] == log_after[words..]
        }
        (
            Case::Audit { job, work, log, .. },
            Case::Audit { job: job_after, work: work_after, log: log_after, .. },
        ) if matches!(refusal, 0 | 7 | 14 | 18) => {
            job == job_after && cleared(work, work_after, 0, 8 * job.kind.len()) && log == log_after
        }
        (Case::Search { graph, work, .. }, Case::Search { work: work_after, .. }) if refusal == 0 => {
            let nodes = graph.kind.len();
            cleared(work, work_after, nodes, 8 * nodes)
        }
        (Case::Read { text, tables }, Case::Read { text: text_after, tables: tables_after })
            if refusal == 0 =>
        {
            let untimed = after.answer.numbers[11] == 0;
            let same = tables.delay == tables_after.delay && tables.criticality == tables_after.criticality;
            text == text_after && (same || !untimed)
        }
        (Case::Write { source, log, .. }, Case::Write { source: source_after, log: log_after, .. })
            if refusal == 0 =>
        {
            source == source_after && log == log_after
        }
        (Case::AddUses { counts, .. }, Case::AddUses { counts: grown, .. })
            if refusal == 0 && !idle(before) =>
        {
            counts.iter().zip(grown).all(|(count, grown)| count <= grown)
                && counts[plain::KINDS..] == grown[plain::KINDS..]
        }
        (Case::WriteUses { buffer, .. }, Case::WriteUses { buffer: written, .. })
            if refusal == 0 && !idle(before) =>
        {
            let bytes = after.answer.numbers[0] as usize;
            buffer[bytes..] == written[bytes..]
        }
        (_, case) => before == case,
    };
    if kept {
        Ok(())
    } else {
        Err(format!("memory after {:?} is not as 01 says", after.answer))
    }
}

/// Entries `from` to `end` are 0, those past `end` as they were.
fn cleared(before: &[u64], after: &[u64], from: usize, end: usize) -> bool {
    after[from..end].iter().all(|entry| *entry == 0) && before[end..] == after[end..]
}

/// The checker's word on the log of a sound job with enough work memory. Of one that is resumed the words lent count as they are, once
/// they are taken up.
fn check(after: &After) -> Result<(), String> {
    if let Case::Audit { job, terms, used, log, .. } = &after.case {
        return check_audit(&taken(job, *terms), *used as usize, log, &after.answer);
    }
    let Case::Route { job, terms, used, log, .. } = &after.case else { return Ok(()) };
    let Answer { refusal, numbers } = &after.answer;
    if matches!(refusal.first(), Some(5 | 6 | 14 | 15)) {
        return Ok(());
    }
    let lent = used.filter(|_| refusal.first() != Some(&7)).unwrap_or(0);
    let job = taken(job, *terms);
    checker::check_resumed(&checked(&job), lent, log, refusal, numbers[0], numbers[1], numbers[2])
        .map_err(|fault| format!("the checker faults the log ({:?}): {fault}", after.answer))
}

/// The checker's word on the same log: of a sound one it counts as many turns, and faults nothing where the log settles; of one that is not
/// cheapest it faults the same turn, with the same costs.
fn check_audit(job: &Job, used: usize, log: &[u32], answer: &Answer) -> Result<(), String> {
    let (job, numbers) = (checked(job), &answer.numbers);
    let agrees = match answer.refusal[..] {
        [] => {
            let settles = numbers[1] > 0 && numbers[2] == 0;
            let whole = || checker::check(&job, &log[..used], &[], numbers[1], numbers[0], used as u64);
            checker::check_turns(&job, log, used as u64) == Ok(numbers[0]) && (!settles || whole() == Ok(()))
        }
        [18, word, cost] => {
            let words = word + 6 + u64::from(log[word as usize + 5]);
            let fault = checker::Fault::CheaperPath { turn: numbers[0], logged: cost, least: numbers[3] };
            checker::check_turns(&job, log, words) == Err(fault)
        }
        _ => true,
    };
    agrees
        .then_some(())
        .ok_or_else(|| format!("the checker has another word on a log that is audited: {answer:?}"))
}

/// The job as the checker takes it.
pub fn checked(job: &Job) -> checker::Job<'_> {
    let [first, up, down, step] = job.tuning.numbers();
    checker::Job {
        kind: &job.kind,
        capacity: &job.capacity,
        first_edge: &job.first_edge,
        edge_target: &job.edge_target,
        source: &job.source,
        first_sink: &job.first_sink,
        sink: &job.sink,
        limit: job.limit,
        tuning: checker::Tuning { first, up, down, step },
        timing: job
            .is_timed()
            .then_some(checker::Timing { delay: &job.delay, criticality: &job.criticality }),
    }
}

/// Lends an `out` of some length to the raw call and tests what it holds afterwards.
#[cfg(feature = "library")]
pub fn compare_out(case: &Case, length: usize) -> Result<(), String> {
    let mut expected = case.clone();
    let mut expected_out: Vec<u64> = (0..length as u64).map(|place| 0xa5a5_0000_0000_0000 + place).collect();
    let mut copy = case.clone();
    let mut out = expected_out.clone();
    let acts = length >= raw::OUT && !idle(case);
    if acts {
        let answer = run_plain(&mut expected);
        expected_out[..raw::OUT].fill(0);
        expected_out[..answer.refusal.len()].copy_from_slice(&answer.refusal);
        expected_out[raw::OWN..raw::OWN + own(case)].copy_from_slice(&answer.numbers);
    }
    let returned = raw_call(&mut copy, &mut out);
    if returned != u32::from(acts) || out != expected_out || copy != expected {
        return Err(format!(
            "with an out of {length}: returned {returned}, out {out:?}, expected {expected_out:?}, slices {}",
            if copy == expected { "equal" } else { "differ" },
        ));
    }
    Ok(())
}

/// Without the library there is no `out`.
#[cfg(not(feature = "library"))]
pub fn compare_out(case: &Case, _length: usize) -> Result<(), String> {
    let _ = own(case);
    Ok(())
}

/// Wrong answers put in on purpose, to test the shrinker.
#[cfg(not(feature = "library"))]
pub mod inject {
    use super::{idle, Answer, Case};
    use crate::logs;
    use job::Job;
    use std::sync::atomic::{AtomicU32, Ordering};

    /// Which fault the second side has; 0 is none.
    pub static FAULT: AtomicU32 = AtomicU32::new(0);

    /// The second side's answer with the fault chosen.
    pub fn inject(before: &Case, after: &mut Case, mut answer: Answer) -> Answer {
        match (FAULT.load(Ordering::Relaxed), before, after) {
            // the last word of a log that comes to iteration 3 is off by one
            (1, Case::Route { used: None, .. }, Case::Route { log, .. }) if answer.numbers[0] >= 3 => {
                log[answer.numbers[2] as usize - 1] ^= 1;
            }
            // a bad target goes unseen
            (2, Case::Route { job, .. }, _) if answer.refusal == [5, 4] && job.kind.len() > 1 => {
                answer.refusal = vec![5, 5];
            }
            // a CR is taken for a wrong value
            (3, Case::Read { text, .. }, _)
                if text.contains(&b'\r') && answer.refusal.first() == Some(&1) =>
            {
                answer.refusal[0] = 2;
            }
            // the last table too short is written to
            (4, Case::Read { .. }, Case::Read { tables, .. }) if answer.refusal == [4, 7] => {
                if let Some(entry) = tables.sink.first_mut() {
                    *entry = 9;
                }
            }
            // two nets in a log are one byte too many
            (5, Case::Write { log, .. }, _) if answer.refusal.is_empty() && log.len() > 20 => {
                answer.numbers[0] += 1;
            }
            // a bad mark past the third node goes unseen
            (6, Case::Search { .. }, _) if answer.refusal.first() == Some(&13) && answer.refusal[1] > 3 => {
                answer.refusal.clear();
            }
            // one price is off
            (7, Case::Price { factor, .. }, _) if answer.refusal.is_empty() && *factor == 65_535 => {
                answer.numbers[0] += 1;
            }
            // a node on two paths of a net counts twice
            (17, Case::AddUses { log, .. }, Case::AddUses { counts, .. })
                if answer.refusal.is_empty() && !idle(before) && logs::forks(log) =>
            {
                counts[0] += 1;
            }
            // a log adds more to counts that aren't the first's
            (37, Case::AddUses { logs: 1, .. }, Case::AddUses { counts, .. })
                if answer.refusal.is_empty() && !idle(before) =>
            {
                counts[0] += 1;
            }
            // a refused log adds something
            (18, _, Case::AddUses { counts, .. }) if answer.refusal.first() == Some(&10) => counts[53] += 1,
            (fault, _, after) => of_requests(fault, before, after, &mut answer),
        }
        answer
    }

    fn has_source_of_kind_1(job: &Job) -> bool {
        job.source.iter().any(|pin| job.kind.get(*pin as usize) == Some(&1))
    }

    fn repeats_sink(job: &Job) -> bool {
        (0..job.source.len()).any(|net| logs::repeats_sink(job, net))
    }

    /// Faults of timed calls.
    fn of_timed(fault: u32, before: &Case, after: &mut Case, answer: &mut Answer) {
        match (fault, before, after, &answer.refusal[..]) {
            // the dearest tenth of a delay is left out
            (24, Case::Price { timing: Some([delay, 9]), .. }, _, []) if *delay > 0 => {
                answer.numbers[0] -= 100
            }
            // a bad criticality has the place of the factor
            (25, Case::Search { graph, criticality: Some(_), .. }, _, &[13, place])
                if place == graph.kind.len() as u64 + 1 =>
            {
                answer.refusal[1] -= 1
            }
            // table 10 goes unseen
            (26, Case::Route { .. }, _, [5, 10]) => answer.refusal = vec![6, 8],
            // a sink that a path passes is told as a turn
            (27, Case::Route { job, used: None, terms: 8, .. }, Case::Route { log, .. }, [])
                if job.is_timed() && logs::passes_sink(job, &log[..answer.numbers[2] as usize]) =>
            {
                answer.numbers[1] += 1
            }
            // a short table 9 is named as table 8
            (28, Case::Read { .. }, _, [4, 9]) => answer.refusal[1] = 8,
            // the limit is told before the nodes
            (29, Case::Read { .. }, _, &[15, nodes, limit]) => answer.refusal = vec![15, limit, nodes],
            // a log that a timed job does not follow is taken up
            (30, Case::Route { job, used: Some(_), .. }, _, [14, _]) if job.is_timed() => {
                answer.refusal.clear()
            }
            _ => {}
        }
    }

    /// Faults of aimed calls.
    fn of_aimed(fault: u32, before: &Case, answer: &mut Answer) {
        let Case::Route { job, used, aimed: true, log, .. } = before else { return };
        match (fault, used, &answer.refusal[..]) {
            // the joined sinks aren't counted
            (31, None, []) => answer.numbers[3] -= answer.numbers[1],
            // a resume counts the nodes of lent turns
            (32, Some(used), []) => {
                answer.numbers[3] += logs::records(&log[..*used as usize]).len() as u64 - 1
            }
            // the turn that doesn't fit is counted
            (33, None, &[8, _, turns]) if turns > 0 => answer.numbers[3] += 1,
            // a timed job expands every node in each turn
            (34, None, []) if job.is_timed() => answer.numbers[3] = answer.numbers[1] * job.kind.len() as u64,
            // a job without a path has a count
            (35, _, [7, ..]) => answer.numbers[3] = 1,
            // an aimed call tells a turn more than the plain one
            (36, None, []) => answer.numbers[1] += 1,
            _ => {}
        }
    }

    /// Faults of resume.
    fn of_resumes(fault: u32, before: &Case, answer: &mut Answer) {
        let Case::Route { job, used: Some(used), log, .. } = before else { return };
        let lent = &log[..log.len().min(*used as usize)];
        match (fault, &answer.refusal[..]) {
            // the appended turns alone are counted
            (20, []) => answer.numbers[1] -= logs::records(lent).len() as u64 - 1,
            // a log that settles goes on
            (21, [14, word]) if *word == *used && *used > 0 => answer.refusal.clear(),
            // the iteration's first record is named in place of the stray one
            (22, &[14, word]) if word >= 9 && word < *used => answer.refusal[1] = 0,
            // under rule 2 a turn before iteration k is left out
            (23, []) if job.rule == 2 && logs::last_iteration(lent) < job.until => answer.numbers[1] -= 1,
            _ => {}
        }
    }

    /// Faults of audits.
    fn of_audits(fault: u32, before: &Case, answer: &mut Answer) {
        let Case::Audit { job, .. } = before else { return };
        match (fault, &answer.refusal[..]) {
            // a dear turn is passed as sound
            (38, [18, ..]) => {
                answer.refusal.clear();
                answer.numbers[0] += 1;
                answer.numbers[3] = 0;
            }
            // the least cost is told one too high
            (39, [18, ..]) if job.is_timed() => answer.numbers[3] += 1,
            // an iteration that ends with the words isn't whole
            (40, []) if answer.numbers[1] > 0 => answer.numbers[1] -= 1,
            _ => {}
        }
    }

    /// Faults of the tuning, the pins, joined nets, the rule and the bounds of counts.
    fn of_requests(fault: u32, before: &Case, after: &mut Case, answer: &mut Answer) {
        of_timed(fault, before, after, answer);
        of_resumes(fault, before, answer);
        of_aimed(fault, before, answer);
        of_audits(fault, before, answer);
        match (fault, before) {
            // a step of 2 counts a turn too many
            (8, Case::Route { job, .. }) if job.tuning.step == 2 && answer.numbers[0] >= 2 => {
                answer.numbers[1] += 1
            }
            // a value beyond its bounds in a P line is taken for a wrong shape
            (9, Case::Read { text, .. }) if answer.refusal == [2, 2] && text.contains(&b'P') => {
                answer.refusal = vec![1, 2]
            }
            // a source of kind 1 goes unseen
            (10, Case::Route { job, .. }) if answer.refusal == [5, 5] && has_source_of_kind_1(job) => {
                answer.refusal = vec![5, 6]
            }
            // of joined nets a sink that is listed twice counts twice among the places of 7
            (11, Case::Route { job, .. }) if answer.refusal.first() == Some(&7) && repeats_sink(job) => {
                answer.refusal[2] += 1
            }
            // the J lines are left out where there is room for them
            (12, Case::Write { source, .. }) if answer.refusal.is_empty() && logs::has_joined(source) => {
                answer.numbers[0] -= 6
            }
            // under rule 2 a net without an overfull node makes a turn all the same
            (13, Case::Route { used: None, .. }) if logs::passes_over(log(after, answer)) => {
                answer.numbers[1] += 1
            }
            // another rule in a V line is taken for a wrong shape
            (14, Case::Read { text, .. })
                if answer.refusal == [2, 2]
                    && text.windows(3).any(|three| three == b"\nV,")
                    && !text.contains(&b'P') =>
            {
                answer.refusal = vec![1, 2]
            }
            // the text has the branches of the last iteration alone
            (15, Case::Write { log, .. }) if answer.refusal.is_empty() && logs::keeps_tree(log) => {
                answer.numbers[0] -= 8
            }
            // a slice without the rule is taken for one of rule 2
            (16, Case::Route { terms: 5, .. }) if answer.numbers[0] >= 2 => answer.numbers[1] -= 1,
            // counts of 65,536 logs are tested for their uses
            (19, Case::WriteUses { .. }) if answer.refusal == [13, 54] => answer.refusal = vec![13, 53],
            _ => {}
        }
    }

    /// The words used of a log.
    fn log<'a>(after: &'a Case, answer: &Answer) -> &'a [u32] {
        let Case::Route { log, .. } = after else { return &[] };
        &log[..answer.numbers[2] as usize]
    }
}
