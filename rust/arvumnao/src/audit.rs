//! An audit of a log: whether its turns are the job's, and each a cheapest one.

use crate::alone::Congestion;
use crate::job::Job;
use crate::log::{Log, Record};
use crate::refusal::{Refusal, TableFault};
use crate::walk::Walk;
use crate::{out, raw};
use std::fmt;

/// What an audit of a log finds.
#[derive(Clone, Debug, PartialEq, Eq)]
pub struct Audit<'l> {
    /// The turns that are as they should be: all of them where the log is sound, else those before the one found.
    pub turns: u64,
    /// The iterations that are whole.
    pub whole: u32,
    /// The nodes over capacity after the last of these; 0 where none is whole.
    pub over: u32,
    /// The first turn that is not a cheapest one; none where the log is sound.
    pub finding: Option<Finding<'l>>,
}

/// A turn that follows the job, and is not a cheapest one.
#[derive(Clone, Debug, PartialEq, Eq)]
pub struct Finding<'l> {
    /// Which of the log's turns it is, from 1: its line in the log's text.
    pub turn: u64,
    /// The place of its record's first word.
    pub word: u64,
    /// Its record, which has its cost and its path.
    pub record: Record<'l>,
    /// The least cost that the turn could have had.
    pub least: u64,
    /// A path of that cost, from the net's tree to a sink that the turn could have joined.
    pub path: Vec<u32>,
}

impl Log {
    /// Audits the log, whoever made it: are its turns this job's, and is each a cheapest one? Of a sound log every turn is as this router's
    /// own are, and where an iteration is whole and no node is over capacity, the final trees are those of an accepted job. The log of
    /// a run is sound, and so is its beginning up to any record.
    ///
    /// Refused by [`Refusal::Table`], [`Refusal::TooLarge`] and [`Refusal::Unreachable`], and by [`Refusal::Diverges`] with the first record
    /// that does not follow the job. A turn that is not cheapest is no refusal: it is in the answer.
    ///
    /// ```
    /// use arvumnao::{Job, Log};
    ///
    /// let job = Job::read(include_bytes!("../../../examples/detour.txt"))?;
    /// let log = Log::read(include_bytes!("../../../examples/detour.log"), &job.nets)?;
    /// let finding = log.audit(&job)?.finding.unwrap();
    /// assert_eq!(finding.to_string(), "turn 2: net 0 to sink 5 cost 6,000, a path of 4,000 exists");
    /// assert_eq!((finding.record.path, &finding.path[..]), (&[0, 6, 5][..], &[2, 4, 5][..]));
    /// // this router's own log is sound
    /// let own = job.route()?.log;
    /// let audit = own.audit(&job)?;
    /// assert_eq!((audit.turns, audit.whole, audit.over, audit.finding), (2, 1, 0, None));
    /// # Ok::<(), arvumnao::Refusal>(())
    /// ```
    pub fn audit<'l>(&'l self, job: &Job) -> Result<Audit<'l>, Refusal> {
        let told = called(job, self.words());
        let &[turns, whole, over, least] = raw::own::<4>(&told);
        let finding = match *raw::refusal(&told) {
            [] => None,
            [18, word, _] => Some(self.finding(job, turns, word, least)?),
            [5, table] => return Err(Refusal::Table(TableFault::find(job, table as u32))),
            [15, nodes, limit] => return Err(Refusal::too_large(nodes, limit)),
            [7, net, place] => return Err(job.unreachable(net as u32, place as u32)),
            [14, word] => return Err(Refusal::Diverges { word, words: self.words().len() as u64 }),
            ref numbers => return Err(Refusal::unexpected(numbers)),
        };
        Ok(Audit { turns, whole: whole as u32, over: over as u32, finding })
    }

    /// The turn after so many, with a path of the least cost, by the search.
    fn finding<'l>(&'l self, job: &Job, turns: u64, word: u64, least: u64) -> Result<Finding<'l>, Refusal> {
        let broken = |reason| Refusal::Replay { word, reason };
        let mut walk = Walk::new(job);
        let mut records = self.records();
        for record in records.by_ref().take(turns as usize) {
            walk.come_to(&record).map_err(broken)?;
            walk.take(&record);
        }
        let record = records.next().ok_or_else(|| broken(String::from("the log ends before it")))?;
        walk.come_to(&record).map_err(broken)?;
        let path = cheapest(job, &walk, &record, least)?;
        let path = path.ok_or_else(|| broken(format!("the search has no path of {least}")))?;
        Ok(Finding { turn: turns + 1, word, record, least, path })
    }
}

/// The library's call, with all words used.
fn called(job: &Job, log: &[u32]) -> [u64; raw::OUT] {
    let Job { block, nets, .. } = job;
    let (delay, criticality) = job.timed_tables();
    let mut work = vec![0; 8 * block.kind.len()];
    out(|out| {
        raw::audit(
            &block.kind,
            &block.capacity,
            &block.first_edge,
            &block.edge_target,
            &nets.source,
            &nets.first_sink,
            &nets.sink,
            delay,
            criticality,
            &job.numbers(job.terms.limit),
            log.len() as u64,
            &mut work,
            log,
            out,
        )
    })
}

/// A path of this cost from the tree to a sink that the turn may join, read off the distances that the search finds.
fn cheapest(job: &Job, walk: &Walk, record: &Record, least: u64) -> Result<Option<Vec<u32>>, Refusal> {
    let start = walk.congestion();
    let criticality = walk.criticality(record);
    let distance = match (&job.timing, criticality) {
        (Some(timing), Some(critical)) => {
            job.block.timed_distances(&start, &timing.delay, critical.into())?
        }
        _ => job.block.distances(&start)?,
    };
    let goals = walk.open(record);
    let Some(sink) = goals.into_iter().find(|sink| distance[*sink as usize] == Some(least)) else {
        return Ok(None);
    };
    let mut path = vec![sink];
    while let Some(node) = path.last().copied().filter(|node| !marked(&start, *node)) {
        let price = walk.step(node, criticality).price;
        let sum = |before: u32| distance[before as usize].and_then(|distance| distance.checked_add(price));
        let reaches =
            |before: &u32| job.block.has_edge(*before, node) && sum(*before) == distance[node as usize];
        match (0..distance.len() as u32).find(reaches) {
            Some(before) => path.push(before),
            None => return Ok(None),
        }
    }
    path.reverse();
    Ok(Some(path))
}

/// Whether the tree has the node.
fn marked(start: &Congestion, node: u32) -> bool {
    start.in_tree[node as usize] == 1
}

/// A number with a comma after each three digits from its end.
fn grouped(number: u64) -> String {
    let digits = number.to_string();
    let mut text = String::new();
    for (place, digit) in digits.chars().enumerate() {
        if place > 0 && (digits.len() - place) % 3 == 0 {
            text.push(',');
        }
        text.push(digit);
    }
    text
}

impl fmt::Display for Finding<'_> {
    fn fmt(&self, f: &mut fmt::Formatter<'_>) -> fmt::Result {
        let Finding { turn, record, least, .. } = self;
        let (cost, least) = (grouped(record.cost), grouped(*least));
        write!(
            f,
            "turn {turn}: net {} to sink {} cost {cost}, a path of {least} exists",
            record.net, record.sink
        )
    }
}
