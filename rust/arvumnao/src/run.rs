//! Runs: the library's calls that route a job or continue from a log, as many of them as the log needs.

use crate::job::{Job, NETS, NODES, SINKS};
use crate::log::{Log, Records};
use crate::refusal::{Refusal, TableFault};
use crate::walk::{firsts, highest_limit};
use crate::{out, raw};
use std::alloc::{alloc_zeroed, Layout};

/// A job that was accepted: no wire is overfull.
#[derive(Clone, Debug, PartialEq, Eq)]
pub struct Answer {
    /// The iteration in which it settled.
    pub iteration: u32,
    /// The turns made, as many as the log has records.
    pub turns: u64,
    /// Every turn's path and cost.
    pub log: Log,
}

/// The answer of [`Job::route_aimed`], [`Job::resume_aimed`] and the watched runs.
#[derive(Clone, Debug, PartialEq, Eq)]
pub struct Aimed {
    /// What [`Job::route`] or [`Job::resume`] answers: the search that is chosen makes no difference to it.
    pub answer: Result<Answer, Refusal>,
    /// The nodes expanded in the turns that the call logged, also where it was stopped by log or limit. The plain search counts none.
    pub expanded: u64,
}

/// Which search a run is made by. The answer is the same.
#[derive(Clone, Copy, Debug, Default, PartialEq, Eq)]
pub enum Search {
    /// The one that looks all round. It is the quicker one, and counts nothing.
    #[default]
    Plain,
    /// The one that looks towards the sinks, and counts the nodes that it expands.
    Aimed,
}

/// `words` zeros in memory that is not touched before it is written to; none if the system doesn't give that much.
fn zeroed(words: usize) -> Option<Vec<u32>> {
    let layout = Layout::array::<u32>(words).ok().filter(|layout| layout.size() > 0)?;
    // SAFETY: the layout has a size; the memory, unless it is null, is that of `words` numbers, all 0, from the allocator of Vec.
    unsafe {
        let memory = alloc_zeroed(layout).cast::<u32>();
        (!memory.is_null()).then(|| Vec::from_raw_parts(memory, words, words))
    }
}

/// A run so far. It has whole iterations, unless it is at its end.
pub(crate) struct Run<'j> {
    pub(crate) job: &'j Job,
    search: Search,
    /// The words used, and whether the next call continues from them or begins the run.
    pub(crate) log: Vec<u32>,
    begun: bool,
    /// The words that were lent at first.
    lent: usize,
    /// The last iteration of the log.
    pub(crate) iteration: u32,
    expanded: u64,
    told: [u64; raw::OUT],
}

impl<'j> Run<'j> {
    /// A run from the start, or from the words of a log.
    pub(crate) fn new(job: &'j Job, search: Search, log: Option<&[u32]>) -> Run<'j> {
        let words = log.unwrap_or_default();
        let iteration = Records::of(words).last().map_or(0, |record| record.iteration);
        Run {
            job,
            search,
            log: words.to_vec(),
            begun: log.is_some(),
            lent: words.len(),
            iteration,
            expanded: 0,
            told: [0; raw::OUT],
        }
    }

    /// One call of the library under this limit, in this memory, which has room for the words used.
    fn call(&mut self, limit: u32, mut log: Vec<u32>) {
        let Job { block, nets, .. } = self.job;
        let (delay, criticality) = self.job.timed_tables();
        let used = self.log.len();
        log[..used].copy_from_slice(&self.log);
        let mut work = vec![0; 8 * block.kind.len()];
        let terms = self.job.numbers(limit);
        macro_rules! told {
            ($call:path $(, $used:expr)?) => {
                out(|out| {
                    $call(
                        &block.kind,
                        &block.capacity,
                        &block.first_edge,
                        &block.edge_target,
                        &nets.source,
                        &nets.first_sink,
                        &nets.sink,
                        delay,
                        criticality,
                        &terms,
                        $($used,)?
                        &mut work,
                        &mut log,
                        out,
                    )
                })
            };
        }
        self.told = match (self.begun, self.search) {
            (false, Search::Plain) => told!(raw::route),
            (false, Search::Aimed) => told!(raw::route_aimed),
            (true, Search::Plain) => told!(raw::resume, used as u64),
            (true, Search::Aimed) => told!(raw::resume_aimed, used as u64),
        };
        self.take(log);
    }

    /// Takes the numbers and the log of a call. A refusal without turns leaves the log as it was.
    fn take(&mut self, mut log: Vec<u32>) {
        let &[iteration, _, used, expanded] = raw::own::<4>(&self.told);
        self.expanded += expanded;
        if used > 0 {
            log.truncate(used as usize);
            log.shrink_to_fit();
            (self.log, self.begun, self.iteration) = (log, true, iteration as u32);
        }
    }

    /// Makes up to `iterations` more iterations, in a log that is long enough for them. True if the run may continue: the limit of the call was
    /// reached, and not the job's. A call under a lower limit that is refused before its first turn is repeated under the job's limit, so
    /// that the refusal has the job's numbers.
    pub(crate) fn go_on(&mut self, iterations: u32) -> bool {
        let (limit, highest) = (self.job.terms.limit, highest_limit(self.job));
        // the library refuses a limit that is not allowed
        let left = limit.min(highest).saturating_sub(self.iteration);
        let (made, log) = self.room(iterations.clamp(1, left.max(1)));
        let next = if limit > highest { limit } else { self.iteration.saturating_add(made).min(limit) };
        self.call(next, log);
        match raw::refusal(&self.told) {
            [9, ..] => next < limit,
            [] | [8, ..] => false,
            _ => {
                if next < limit {
                    self.call(limit, vec![0; self.log.len()]);
                }
                false
            }
        }
    }

    /// Memory for the words used and this many more iterations, or for fewer if the system doesn't give that much.
    fn room(&self, mut iterations: u32) -> (u32, Vec<u32>) {
        let most = self.words_an_iteration();
        loop {
            let words = self.log.len() + most * iterations as usize;
            match zeroed(words) {
                Some(log) => return (iterations, log),
                None if iterations > 1 => iterations /= 2,
                None => return (1, vec![0; words]),
            }
        }
    }

    /// The most words that an iteration takes: a record has 6 words and its path, whose nodes but the first are new to the net's tree.
    fn words_an_iteration(&self) -> usize {
        let Job { block, nets, .. } = self.job;
        let routed = firsts(&nets.source).into_iter().zip(0..).filter(|(first, net)| first == net).count();
        // tables beyond these are refused
        7 * nets.sink.len().min(SINKS) + routed.min(NETS) * block.kind.len().min(NODES) + 1
    }

    /// Whether the last call made turns, or continued from some.
    pub(crate) fn made_turns(&self) -> bool {
        let &[_, turns] = raw::own::<2>(&self.told);
        turns > 0
    }

    /// The answer of the last call, about the whole run.
    pub(crate) fn ended(self) -> Aimed {
        let &[iteration, turns, _] = raw::own::<3>(&self.told);
        let (job, log) = (self.job, Log::of_run(self.log));
        let answer = match *raw::refusal(&self.told) {
            [] => Ok(Answer { iteration: iteration as u32, turns, log }),
            [5, table] => Err(Refusal::Table(TableFault::find(job, table as u32))),
            [15, nodes, limit] => Err(Refusal::too_large(nodes, limit)),
            [7, net, place] => Err(job.unreachable(net as u32, place as u32)),
            [8, iteration, turns] => Err(Refusal::LogFull { iteration: iteration as u32, turns, log }),
            [9, iteration, over] => Err(job.not_settled(iteration as u32, over as u32, turns, log)),
            [14, word] => Err(Refusal::Diverges { word, words: self.lent as u64 }),
            ref numbers => Err(Refusal::unexpected(numbers)),
        };
        Aimed { answer, expanded: self.expanded }
    }

    /// The run to its end.
    fn finish(mut self) -> Aimed {
        while self.go_on(u32::MAX) {}
        self.ended()
    }

    /// One call under the job's limit.
    pub(crate) fn in_words(mut self, words: usize) -> Aimed {
        self.call(self.job.terms.limit, vec![0; words.max(self.log.len())]);
        self.ended()
    }

    /// A run whose log is not what it should be.
    pub(crate) fn refused(self, refusal: Refusal) -> Aimed {
        Aimed { answer: Err(refusal), expanded: self.expanded }
    }

    /// A run that was stopped after this iteration, with the log's first `words` words.
    pub(crate) fn stopped(mut self, iteration: u32, words: usize) -> Aimed {
        self.log.truncate(words);
        let log = Log::of_run(self.log);
        let turns = log.records().count() as u64;
        Aimed { answer: Err(Refusal::Stopped { iteration, turns, log }), expanded: self.expanded }
    }
}

impl Job {
    /// Whether the tables keep their rules. Refused by [`Refusal::Table`] and [`Refusal::TooLarge`], as [`Job::route`] is.
    pub fn check(&self) -> Result<(), Refusal> {
        let Job { block, nets, .. } = self;
        let (delay, criticality) = self.timed_tables();
        // without work memory the router tests the tables and then refuses the memory
        let told = out(|out| {
            raw::route(
                &block.kind,
                &block.capacity,
                &block.first_edge,
                &block.edge_target,
                &nets.source,
                &nets.first_sink,
                &nets.sink,
                delay,
                criticality,
                &self.numbers(self.terms.limit),
                &mut [],
                &mut [],
                out,
            )
        });
        match *raw::refusal(&told) {
            [6, _] => Ok(()),
            [5, table] => Err(Refusal::Table(TableFault::find(self, table as u32))),
            [15, nodes, limit] => Err(Refusal::too_large(nodes, limit)),
            ref numbers => Err(Refusal::unexpected(numbers)),
        }
    }

    /// Routes the job in a log as long as it needs. Refused by [`Refusal::Table`], [`Refusal::TooLarge`], [`Refusal::Unreachable`] or
    /// [`Refusal::Limit`].
    ///
    /// It lends a log that is long enough for every iteration: up to 860 MB of address space on the largest blocks, of which only the part
    /// written to takes memory. If the system doesn't give that much, it makes several calls, each of which continues from the last;
    /// the answer is the same.
    pub fn route(&self) -> Result<Answer, Refusal> {
        Run::new(self, Search::Plain, None).finish().answer
    }

    /// Routes the job in a log of `words` words. Refused as [`Job::route`] is, and by [`Refusal::LogFull`].
    pub fn route_in(&self, words: usize) -> Result<Answer, Refusal> {
        Run::new(self, Search::Plain, None).in_words(words).answer
    }

    /// Routes the job as [`Job::route`] does, by a search that aims, and counts the nodes that it expanded. The answer is the same.
    ///
    /// A turn expands the nodes whose distance from the net's tree plus an estimate of what is left to the sink is at most the joined
    /// sink's distance; `docs/FORMAT.md` has the estimate.
    ///
    /// ```
    /// let job = arvumnao::Job::read(include_bytes!("../../../examples/job_b.txt"))?;
    /// let aimed = job.route_aimed();
    /// assert_eq!(aimed.answer, job.route());
    /// assert_eq!(aimed.expanded, 12);
    /// # Ok::<(), arvumnao::Refusal>(())
    /// ```
    pub fn route_aimed(&self) -> Aimed {
        Run::new(self, Search::Aimed, None).finish()
    }

    /// The same in a log of `words` words.
    pub fn route_aimed_in(&self, words: usize) -> Aimed {
        Run::new(self, Search::Aimed, None).in_words(words)
    }

    /// Continues from the log of a run that ended in whole iterations, for example by [`Refusal::Limit`], under a higher limit.
    /// Histories, factor and trees are rebuilt from the log, and turns are appended. Refused as [`Job::route`] is, and by
    /// [`Refusal::Diverges`] unless the log follows the job. The answer is about the whole log.
    ///
    /// From the job's own log it ends as [`Job::route`] does, without making its turns again. Any other log that follows the job is accepted
    /// as it is: its paths need not be the cheapest. In a timed job each of its turns must join the sink that is due.
    ///
    /// ```
    /// use arvumnao::{Job, Refusal};
    ///
    /// let mut job = Job::read(include_bytes!("../../../examples/job_b.txt"))?;
    /// job.terms.limit = 1;
    /// let Err(Refusal::Limit { log, .. }) = job.route() else { panic!("job B settles in iteration 2") };
    /// job.terms.limit = 2;
    /// assert_eq!(job.resume(&log)?, job.route()?);
    /// # Ok::<(), Refusal>(())
    /// ```
    pub fn resume(&self, log: impl AsRef<[u32]>) -> Result<Answer, Refusal> {
        Run::new(self, Search::Plain, Some(log.as_ref())).finish().answer
    }

    /// The same in a log of `words` words, or of its own length if it is longer. Refused as [`Job::resume`] is, and by
    /// [`Refusal::LogFull`].
    pub fn resume_in(&self, log: impl AsRef<[u32]>, words: usize) -> Result<Answer, Refusal> {
        Run::new(self, Search::Plain, Some(log.as_ref())).in_words(words).answer
    }

    /// Continues as [`Job::resume`] does, by the search that aims, and counts the nodes that it expanded in the turns that it appends. The
    /// answer is the same.
    pub fn resume_aimed(&self, log: impl AsRef<[u32]>) -> Aimed {
        Run::new(self, Search::Aimed, Some(log.as_ref())).finish()
    }

    /// The same in a log of `words` words, or of its own length if it is longer.
    pub fn resume_aimed_in(&self, log: impl AsRef<[u32]>, words: usize) -> Aimed {
        Run::new(self, Search::Aimed, Some(log.as_ref())).in_words(words)
    }

    /// The refusal of a sink without a path.
    pub(crate) fn unreachable(&self, net: u32, place: u32) -> Refusal {
        let source = self.nets.source.get(net as usize).copied().unwrap_or_default();
        let sink = self.nets.joined_sinks(net as usize).get(place as usize).copied().unwrap_or_default();
        let line = self.first_listing(source, sink).unwrap_or_default();
        Refusal::Unreachable { net, place, source, sink, line }
    }

    /// The refusal at the limit. The nodes over capacity are read off the log, and must be as many as the library counts.
    fn not_settled(&self, iteration: u32, over: u32, turns: u64, log: Log) -> Refusal {
        let may_rise = iteration < highest_limit(self);
        match log.overfull(self) {
            Ok(overfull) if overfull.len() == over as usize => {
                Refusal::Limit { iteration, over, overfull, may_rise, turns, log }
            }
            _ => Refusal::unexpected(&[9, iteration.into(), over.into()]),
        }
    }
}
