//! A run that is watched, iteration by iteration.

use crate::job::Job;
use crate::log::Records;
use crate::refusal::Refusal;
use crate::run::{Aimed, Run, Search};
use crate::walk::Walk;
use std::ops::ControlFlow;
use std::time::{Duration, Instant};

/// How a run stands after an iteration.
#[derive(Clone, Copy, Debug, PartialEq, Eq)]
pub struct Progress {
    /// The iteration, from 1.
    pub iteration: u32,
    /// Its congestion factor, in hundredths.
    pub factor: u32,
    /// The nets that were routed in it.
    pub nets: u32,
    /// The turns made in it.
    pub turns: u64,
    /// The nodes over capacity after it; the job is accepted when there are none.
    pub overfull: u32,
    /// By how many nets these are over their capacities, summed.
    pub overuse: u64,
    /// The base costs of the nodes of all trees after it, summed.
    pub tree_cost: u64,
}

/// A call should take at least `LEAST` seconds, and `TIMES` times what it costs to read the log that it continues from.
const LEAST: f64 = 0.3;
const TIMES: f64 = 25.0;

// Nanoseconds, measured on one machine and rounded up. They only decide how often a run is reported.
/// The search for paths before iteration 1, for each net, node and edge; and reading a log, for each word.
const FLOOD: f64 = 1.0;
const WORD: f64 = 25.0;
/// A turn of iteration 1, for each node and edge.
const TURN: f64 = 1.0;

/// Decides how many iterations a call makes: few calls, since each reads the log again, but not so few that the watcher waits. In seconds.
pub(crate) struct Pace {
    /// The least time of a call.
    pub(crate) least: f64,
    /// The time before it reads a log, and for each word of the log.
    pub(crate) flood: f64,
    pub(crate) word: f64,
    /// The time of the last iteration, or the expected time of the first.
    pub(crate) iteration: f64,
}

impl Pace {
    fn new(job: &Job) -> Pace {
        let size = (job.block.kind.len() + job.block.edge_target.len()) as f64;
        let (nets, sinks) = (job.nets.source.len() as f64, job.nets.sink.len() as f64);
        Pace {
            least: LEAST,
            flood: nets * size * FLOOD / 1e9,
            word: WORD / 1e9,
            iteration: sinks * size * TURN / 1e9,
        }
    }

    /// The iterations of the next call, which continues from this many words.
    fn iterations(&self, words: usize) -> u32 {
        let take_up = self.flood + words as f64 * self.word;
        // a number beyond the bounds becomes the nearest bound
        (self.least.max(TIMES * take_up) / self.iteration.max(1e-9)).ceil() as u32
    }

    /// Takes how long some iterations took.
    fn took(&mut self, iterations: u32, time: Duration) {
        if iterations > 0 {
            self.iteration = time.as_secs_f64() / f64::from(iterations);
        }
    }
}

/// How far a run has been reported: the records up to a word.
struct Teller<'j> {
    walk: Walk<'j>,
    word: usize,
    /// Iterations up to this one are not reported: they were lent.
    lent: u32,
}

impl Teller<'_> {
    /// Reports the iterations that the log has gained. If `watch` breaks, returns the words of the log up to there.
    fn tell(
        &mut self,
        log: &[u32],
        watch: &mut impl FnMut(&Progress) -> ControlFlow<()>,
    ) -> Result<ControlFlow<usize>, Refusal> {
        let mut rest = Records::of(&log[self.word..]).peekable();
        while let Some(record) = rest.next() {
            let word = self.word as u64;
            self.walk.come_to(&record).map_err(|reason| Refusal::Replay { word, reason })?;
            self.walk.take(&record);
            self.word += record.words() as usize;
            let ended = rest.peek().map_or(true, |next| next.iteration != record.iteration);
            if ended && record.iteration > self.lent && watch(&self.progress()).is_break() {
                return Ok(ControlFlow::Break(self.word));
            }
        }
        Ok(ControlFlow::Continue(()))
    }

    fn progress(&self) -> Progress {
        let Walk { iteration, factor, nets, turns, tree_cost, .. } = self.walk;
        let (overfull, overuse) = self.walk.overuse();
        Progress { iteration, factor, nets, turns, overfull, overuse, tree_cost }
    }
}

/// Runs to the end at this pace, or until `watch` breaks.
pub(crate) fn watched(
    mut run: Run,
    mut pace: Pace,
    mut watch: impl FnMut(&Progress) -> ControlFlow<()>,
) -> Aimed {
    let (job, lent) = (run.job, run.iteration);
    let mut teller: Option<Teller> = None;
    loop {
        let (start, before) = (Instant::now(), run.iteration);
        let more = run.go_on(pace.iterations(run.log.len()));
        pace.took(run.iteration - before, start.elapsed());
        if !run.made_turns() {
            return run.ended();
        }
        let teller = teller.get_or_insert_with(|| Teller { walk: Walk::new(job), word: 0, lent });
        match teller.tell(&run.log, &mut watch) {
            Err(refusal) => return run.refused(refusal),
            Ok(ControlFlow::Break(words)) if more || words < run.log.len() => {
                return run.stopped(teller.walk.iteration, words);
            }
            Ok(_) if !more => return run.ended(),
            Ok(_) => {}
        }
    }
}

impl Job {
    /// Routes the job as [`Job::route`] does, and reports each iteration to `watch`, in order. If `watch` breaks before the end of the run,
    /// the run ends with [`Refusal::Stopped`], which has the log up to that iteration; [`Job::resume`] and [`Job::resume_with`] continue from it.
    ///
    /// The library makes several iterations in a call, so that reading their log again costs less than a tenth of the time. They are reported
    /// when the call ends. So it may take a third of a second until `watch` is called, on the largest blocks some seconds.
    ///
    /// ```
    /// use arvumnao::{Job, Refusal, Search};
    /// use std::ops::ControlFlow::{Break, Continue};
    ///
    /// let job = Job::read(include_bytes!("../../../examples/job_b.txt"))?;
    /// let mut rows = Vec::new();
    /// let run = job.route_with(Search::Plain, |progress| {
    ///     rows.push((progress.iteration, progress.factor, progress.overfull, progress.tree_cost));
    ///     Continue(())
    /// });
    /// assert_eq!(run.answer, job.route());
    /// assert_eq!(rows, [(1, 0, 1, 120), (2, 50, 0, 140)]);
    ///
    /// let Err(Refusal::Stopped { log, .. }) = job.route_with(Search::Plain, |_| Break(())).answer else {
    ///     panic!("it was stopped after iteration 1")
    /// };
    /// assert_eq!(job.resume(&log), job.route());
    /// # Ok::<(), Refusal>(())
    /// ```
    pub fn route_with(&self, search: Search, watch: impl FnMut(&Progress) -> ControlFlow<()>) -> Aimed {
        watched(Run::new(self, search, None), Pace::new(self), watch)
    }

    /// Continues from a log as [`Job::resume`] does, and reports each appended iteration to `watch`, as [`Job::route_with`] does.
    pub fn resume_with(
        &self,
        search: Search,
        log: impl AsRef<[u32]>,
        watch: impl FnMut(&Progress) -> ControlFlow<()>,
    ) -> Aimed {
        watched(Run::new(self, search, Some(log.as_ref())), Pace::new(self), watch)
    }
}
