//! The calls made for one seed.

use crate::alone::{self, work};
use crate::compare::{self, After, Case};
use crate::damage;
use crate::itself;
use crate::lengths::{self, around};
use crate::logs;
use crate::outcomes::{self, Outcomes};
use crate::resumes::{self, Lent};
use crate::searches::{self, Way};
use crate::uses::{self, Counts};
use job::{jobs, texts, window, Job, Lengths, Rng, TERMS};

/// Of how many in a hundred of the router's calls the aimed one is compared too.
const AIMED: usize = 25;

/// Of 4,000 jobs those whose nets are drawn over the window of a chip.
const WINDOW_FIRST: usize = 9;
const WINDOW_LAST: usize = 11;

/// Words lent for the log of the window's own nets.
const WINDOW_LOG: usize = 5_000;

/// A case that fails, and how.
pub struct Failure {
    pub case: Box<Case>,
    /// The length of `out` at which it fails; none where the safe call does.
    pub out: Option<usize>,
    pub message: String,
}

/// The outcomes so far, and each seed's generator.
pub struct Run {
    pub outcomes: Outcomes,
    rng: Rng,
    /// Which calls are aimed too, apart from the other generator so that what else is called doesn't depend on it.
    aims: Rng,
    /// What audits are made of, apart too.
    audited: Rng,
    /// Prints each seed before it runs, for a library that crashes.
    trace: bool,
}

/// The common end of a call, with an `out` of some length or the safe call's.
pub fn examine(case: &Case, out: Option<usize>) -> Result<After, String> {
    if let Some(length) = out {
        compare::compare_out(case, length)?;
        return Ok(compare::plain(case));
    }
    compare::compare(case)
}

impl Run {
    pub fn new() -> Run {
        Run {
            outcomes: Outcomes::default(),
            rng: Rng::new(0),
            aims: Rng::new(0),
            audited: Rng::new(0),
            trace: std::env::var_os("DIFFERENTIAL_TRACE").is_some(),
        }
    }

    /// Compares a case and counts its outcome; a share of the router's calls with an aimed search too.
    fn case(&mut self, case: Case) -> Result<After, Failure> {
        let out = out_length(&mut self.rng);
        let after = self.one(&case, out)?;
        if matches!(case, Case::Route { .. }) && self.aims.percent(AIMED) {
            self.aimed(case)?;
        }
        Ok(after)
    }

    /// Compares a case and counts its outcome, then at times with an `out` of some length.
    fn one(&mut self, case: &Case, out: Option<usize>) -> Result<After, Failure> {
        let failure = |out, message| Failure { case: Box::new(case.clone()), out, message };
        let after = examine(case, None).map_err(|message| failure(None, message))?;
        self.outcomes.count_call(&after);
        if let Some(length) = out {
            examine(case, out).map_err(|message| failure(out, message))?;
            self.outcomes.count(format!("out of {length} entries"));
        }
        Ok(after)
    }

    /// The same call of the router with an aimed search.
    fn aimed(&mut self, mut case: Case) -> Result<(), Failure> {
        if let Case::Route { aimed, .. } = &mut case {
            *aimed = true;
        }
        let out = out_length(&mut self.aims);
        let after = self.one(&case, out)?;
        self.outcomes.count_aimed(&after);
        Ok(())
    }

    /// Starts the generator of a seed.
    fn begin(&mut self, name: &str, seed: u64, stream: u64) {
        self.rng = Rng::new(stream);
        self.aims = Rng::new(stream ^ 1 << 63);
        self.audited = Rng::new(stream ^ 1 << 62);
        if self.trace {
            eprintln!("{name} {seed}");
        }
    }

    /// All calls for one job.
    pub fn job(&mut self, seed: u64) -> Result<(), Failure> {
        self.begin("job", seed, seed);
        let family = self.rng.below(4_000);
        let job = match family {
            0 => jobs::full(182, 32_768),
            1 => jobs::many_sinks(&mut self.rng, 4_096),
            2 => jobs::line(4_096),
            3..=8 => self.timed_line(),
            WINDOW_FIRST..=WINDOW_LAST => window::seeded(&mut self.rng),
            _ => jobs::job(&mut self.rng),
        };
        let after = self.whole(&job)?;
        if (WINDOW_FIRST..=WINDOW_LAST).contains(&family) {
            self.outcomes.count(format!("nets over the window {}", outcomes::end(&after)));
        }
        self.cut_logs(&job, after.answer.numbers[2] as usize)?;
        self.work_lengths(&job)?;
        self.term_counts(&job)?;
        self.damaged(&job)?;
        self.damaged(&job)?;
        self.resumes(&job)?;
        std::mem::swap(&mut self.rng, &mut self.audited);
        self.audits(&job)?;
        std::mem::swap(&mut self.rng, &mut self.audited);
        let search = alone::search(&mut self.rng);
        self.case(search)?;
        if self.rng.percent(50) {
            let search = alone::timed_search(&mut self.rng);
            self.case(search)?;
        }
        for _ in 0..4 {
            let price = alone::price(&mut self.rng);
            self.case(price)?;
        }
        Ok(())
    }

    /// The stored window of a chip under every rule, by both searches.
    pub fn window(&mut self) -> Result<(), Failure> {
        self.begin("window", 0, 0);
        for (rule, until) in [(1, 1), (2, 1), (2, 3)] {
            let job = Job { rule, until, ..window::stored() };
            let log = self.old_log(WINDOW_LOG);
            let case = route(&job, 8 * job.kind.len(), log);
            let after = self.one(&case, None)?;
            self.outcomes.count(format!("window under rule {rule},{until} {}", outcomes::end(&after)));
            self.aimed(case)?;
        }
        Ok(())
    }

    /// A timed line of as many nodes as there may be, or one or two more.
    fn timed_line(&mut self) -> Job {
        let job = jobs::line(self.rng.pick(&[1_024, 1_024, 1_025, 1_026]));
        jobs::timed(&mut self.rng, job)
    }

    /// The job with as much log as it can need, as far as that is not too much.
    fn whole(&mut self, job: &Job) -> Result<After, Failure> {
        let turns = job.limit as usize * job.sink.len();
        let length = (turns * (6 + job.kind.len())).min(30_000) + self.rng.below(3);
        let length = if self.rng.once_in(50) { self.rng.below(200) } else { length };
        let extra = self.rng.below(10);
        let log = self.old_log(length);
        let after = self.case(route(job, 8 * job.kind.len() + extra, log))?;
        self.outcomes.count_whole(&after);
        self.outcomes.count_tuning(job.tuning, &after);
        self.outcomes.count_rule(job, &after);
        self.outcomes.count_timed(job, &after);
        Ok(after)
    }

    /// A log slice with old content: a pattern, or small numbers as records have them.
    fn old_log(&mut self, length: usize) -> Vec<u32> {
        if self.rng.once_in(4) {
            let first = self.rng.below(9);
            return (0..length).map(|place| ((place + first) % 9 + 1) as u32).collect();
        }
        (0..length as u32).map(|place| 0xdead_0001 + place).collect()
    }

    /// The job with logs that end before it does: one in a few at every length.
    fn cut_logs(&mut self, job: &Job, words: usize) -> Result<(), Failure> {
        let enough = 8 * job.kind.len();
        if words <= 300 && job.kind.len() < 20 && self.rng.once_in(24) {
            for length in 0..=words + 1 {
                let log = self.old_log(length);
                self.case(route(job, enough, log))?;
            }
        } else if words > 0 && self.rng.percent(40) {
            let length = if self.rng.percent(50) { self.rng.below(words) } else { words - self.rng.below(2) };
            let log = self.old_log(length);
            self.case(route(job, enough, log))?;
        }
        Ok(())
    }

    /// The job with a work slice of about the length needed: one in a few at every such length.
    fn work_lengths(&mut self, job: &Job) -> Result<(), Failure> {
        let enough = 8 * job.kind.len();
        if enough <= 160 && self.rng.once_in(100) {
            for length in 0..enough + 10 {
                let log = self.old_log(12);
                self.case(route(job, length, log))?;
            }
        } else if self.rng.percent(25) {
            let length = around(&mut self.rng, enough, 10);
            let log = self.old_log(30);
            self.case(route(job, length, log))?;
        }
        Ok(())
    }

    /// At times the job with fewer terms than it has, or more entries than there are terms.
    fn term_counts(&mut self, job: &Job) -> Result<(), Failure> {
        if self.rng.percent(75) {
            return Ok(());
        }
        let count = self.rng.below(11);
        let words = self.rng.pick(&[40, 400, 2_000]);
        let log = self.old_log(words);
        let work = work(8 * job.kind.len());
        self.case(Case::Route { job: job.clone(), terms: count, used: None, aimed: false, work, log })?;
        self.outcomes.count(format!("terms of {count} entries"));
        Ok(())
    }

    /// The job with damaged tables.
    fn damaged(&mut self, job: &Job) -> Result<(), Failure> {
        let mut job = job.clone();
        damage::damage(&mut self.rng, &mut job);
        let enough = 8 * job.kind.len();
        let length = if self.rng.percent(70) { enough } else { self.rng.below(enough + 1) };
        let words = self.rng.below(60);
        let log = self.old_log(words);
        self.case(route(&job, length, log))?;
        Ok(())
    }

    /// The job resumed from its own logs and from others; at times with damaged tables, a work slice of another length, or fewer terms.
    fn resumes(&mut self, job: &Job) -> Result<(), Failure> {
        if job.kind.len() > 60 && !self.rng.once_in(20) {
            return Ok(());
        }
        let lent = resumes::lent(&mut self.rng, job);
        let case = lent.case();
        let after = self.case(case.clone())?;
        self.outcomes.count_resumed(&lent, &after);
        if itself::straight(&case).is_some() {
            let timed = if lent.job.is_timed() { ", timed" } else { "" };
            self.outcomes.count(format!("straight run's end by a resume, {}{timed}", outcomes::end(&after)));
        }
        if self.rng.once_in(3) {
            self.refused_resume(&lent)?;
        }
        self.damaged_lent(&lent)
    }

    /// The same with something wrong that is told before the log is looked at.
    fn refused_resume(&mut self, lent: &Lent) -> Result<(), Failure> {
        let mut case = lent.case();
        let Case::Route { job, terms, work, .. } = &mut case else { return Ok(()) };
        match self.rng.below(4) {
            0 => *terms = self.rng.below(11),
            1 => work.truncate(self.rng.below(8 * job.kind.len())),
            2 => *job = jobs::small(&mut self.rng),
            _ => damage::damage(&mut self.rng, job),
        }
        self.case(case)?;
        Ok(())
    }

    /// At times a short lent log, every word of it damaged in turn.
    fn damaged_lent(&mut self, lent: &Lent) -> Result<(), Failure> {
        if lent.words.len() > 60 || !self.rng.once_in(40) {
            return Ok(());
        }
        for place in 0..lent.words.len() {
            for word in [lent.words[place] ^ 1, lent.words[place].wrapping_add(1), u32::MAX] {
                let mut damaged = lent.clone();
                damaged.words[place] = word;
                self.case(damaged.case())?;
            }
        }
        self.outcomes.count("lent log damaged word by word");
        Ok(())
    }

    /// Audits of the job's own log, of logs to go on from, and of other routers'.
    fn audits(&mut self, job: &Job) -> Result<(), Failure> {
        if job.kind.len() > 60 && !self.rng.once_in(20) {
            return Ok(());
        }
        self.own_audits(job)?;
        let lent = resumes::lent(&mut self.rng, job);
        self.audit(&lent)?;
        if self.rng.once_in(3) {
            self.refused_audit(&lent)?;
        }
        let most = self.rng.within(1, 4).min(job.limit as usize) as u32;
        let ties = searches::log(&mut self.rng, job, most, Way::Ties);
        self.sound(&Lent::new("log with ties broken otherwise", job, ties))?;
        let stale = searches::log(&mut self.rng, job, most, Way::Stale);
        let stale = Lent::new("log of a stale router", job, stale);
        self.audit(&stale)?;
        if stale.words.len() <= 60 && self.rng.once_in(40) {
            self.damaged_audits(&stale)?;
        }
        Ok(())
    }

    /// The job's own log is sound, whole and cut behind any record.
    fn own_audits(&mut self, job: &Job) -> Result<(), Failure> {
        let own = resumes::own_log(job, job.limit);
        self.sound(&Lent::new("own log", job, own.clone()))?;
        let places = logs::records(&own);
        if own.len() <= 300 && self.rng.once_in(24) {
            for place in places {
                self.sound(&Lent::new("own log cut behind a record", job, own[..place].to_vec()))?;
            }
        } else {
            let place = self.rng.pick(&places);
            self.sound(&Lent::new("own log cut behind a record", job, own[..place].to_vec()))?;
        }
        Ok(())
    }

    /// An audit that finds nothing, unless the job itself is refused.
    fn sound(&mut self, lent: &Lent) -> Result<(), Failure> {
        let after = self.audit(lent)?;
        match after.answer.refusal.first() {
            None | Some(5 | 7 | 15) => Ok(()),
            _ => {
                let message = format!("{} is not sound: {:?}", lent.name, after.answer);
                Err(Failure { case: Box::new(lent.audit()), out: None, message })
            }
        }
    }

    fn audit(&mut self, lent: &Lent) -> Result<After, Failure> {
        let after = self.case(lent.audit())?;
        self.outcomes.count_audited(lent, &after);
        Ok(after)
    }

    /// The same with something wrong that is told before the log is looked at.
    fn refused_audit(&mut self, lent: &Lent) -> Result<(), Failure> {
        let mut case = lent.audit();
        let Case::Audit { job, terms, work, .. } = &mut case else { return Ok(()) };
        match self.rng.below(4) {
            0 => *terms = self.rng.below(11),
            1 => work.truncate(self.rng.below(8 * job.kind.len())),
            2 => *job = jobs::small(&mut self.rng),
            _ => damage::damage(&mut self.rng, job),
        }
        self.case(case)?;
        Ok(())
    }

    /// Every word of a log damaged in turn.
    fn damaged_audits(&mut self, lent: &Lent) -> Result<(), Failure> {
        for place in 0..lent.words.len() {
            for word in [lent.words[place] ^ 1, lent.words[place].wrapping_add(1), u32::MAX] {
                let mut damaged = lent.clone();
                damaged.words[place] = word;
                self.case(damaged.audit())?;
            }
        }
        self.outcomes.count("audited log damaged word by word");
        Ok(())
    }

    /// All calls for one text.
    pub fn text(&mut self, seed: u64) -> Result<(), Failure> {
        self.begin("text", seed, !seed);
        let job = match self.rng.below(2_500) {
            0 => jobs::full(182, 32_768),
            1 | 2 => return self.sinks_text(),
            3 => jobs::line(4_096),
            4..=9 => self.timed_line(),
            10..=150 => jobs::job(&mut self.rng),
            _ => jobs::small(&mut self.rng),
        };
        self.reads(&job)?;
        self.writes(&job)?;
        if self.rng.percent(60) {
            self.uses(&job)?;
        }
        Ok(())
    }

    /// A text of 4,096 or 4,097 sinks, then without its last LF, and with no node as its last sink, or a bad criticality if it is timed.
    fn sinks_text(&mut self) -> Result<(), Failure> {
        let sinks = self.rng.within(4_096, 4_097);
        let job = jobs::many_sinks(&mut self.rng, sinks);
        let job = jobs::perhaps_timed(&mut self.rng, job);
        let text = texts::text(&job);
        let after = self.sinks_read(&text)?;
        match after.answer.refusal.first() {
            None if sinks == 4_096 => self.outcomes.count("text of 4,096 sinks accepted"),
            Some(3) if sinks == 4_097 => self.outcomes.count("text of 4,097 sinks 3"),
            _ => {}
        }
        let open = &text[..text.len() - 1];
        self.sinks_read(open)?;
        let node = open.iter().rposition(|&b| b == b',').map_or(0, |comma| comma + 1);
        self.sinks_read(&[&open[..node], b"4095\n"].concat())?;
        Ok(())
    }

    /// Reads a text into tables that are long enough for it.
    fn sinks_read(&mut self, text: &[u8]) -> Result<After, Failure> {
        self.case(Case::Read { text: text.to_vec(), tables: Job::unread([4_200; 9]) })
    }

    /// Sound and changed texts of a job.
    fn reads(&mut self, job: &Job) -> Result<(), Failure> {
        let sound = texts::some_text(&mut self.rng, job);
        let needed = lengths::needed(job);
        self.read(sound.clone(), needed)?;
        for _ in 0..3 {
            let changed = texts::changed(&mut self.rng, job);
            self.read(changed, needed)?;
        }
        if sound.len() < 300 && self.rng.once_in(100) {
            for length in 0..sound.len() {
                self.read(sound[..length].to_vec(), needed)?;
            }
        }
        if self.rng.once_in(100) {
            self.each_table(&sound, needed)?;
        }
        if self.rng.once_in(40) {
            let odd = texts::odd(&mut self.rng);
            self.read(odd, [2; 9])?;
        }
        Ok(())
    }

    fn read(&mut self, text: Vec<u8>, needed: Lengths) -> Result<After, Failure> {
        let tables = Job::unread(lengths::lengths(&mut self.rng, needed));
        self.case(Case::Read { text, tables })
    }

    /// Each table in turn one too short, just long enough, and one longer.
    fn each_table(&mut self, text: &[u8], needed: Lengths) -> Result<(), Failure> {
        for table in 0..needed.len() {
            for more in 0..3 {
                let mut lengths = needed;
                lengths[table] = (lengths[table] + more).saturating_sub(1);
                self.case(Case::Read { text: text.to_vec(), tables: Job::unread(lengths) })?;
            }
        }
        Ok(())
    }

    /// Logs of a job and others, with buffers of lengths around what they need.
    fn writes(&mut self, job: &Job) -> Result<(), Failure> {
        let (mut source, mut log) = if self.rng.percent(60) {
            (job.source.clone(), real_log(job))
        } else {
            (logs::free_source(&mut self.rng), logs::free_log(&mut self.rng))
        };
        logs::change_log(&mut self.rng, &source, &mut log);
        if self.rng.once_in(6) {
            damage::writer_source(&mut self.rng, &mut source);
        }
        let picture = self.rng.once_in(3);
        let needed = bytes(&write(picture, &source, &log, 0));
        if needed < 200 && self.rng.once_in(100) {
            for length in 0..needed + 2 {
                self.case(write(picture, &source, &log, length))?;
            }
        }
        for _ in 0..2 {
            let length = self.length(needed);
            self.case(write(picture, &source, &log, length))?;
        }
        Ok(())
    }

    /// The length of a buffer that needs so many bytes, mostly about as many.
    fn length(&mut self, needed: usize) -> usize {
        match self.rng.below(6) {
            0 => self.rng.below(needed + 1),
            1 => needed + self.rng.below(40),
            _ => around(&mut self.rng, needed, 2),
        }
    }

    /// Logs added to counts of the job's block one after another, and the text of these; then counts at and beyond their bounds.
    fn uses(&mut self, job: &Job) -> Result<(), Failure> {
        let (mut counts, mut added) = (Counts::none(), Vec::new());
        for _ in 0..self.rng.within(1, 4) {
            let (name, log) = uses::log(&mut self.rng, job);
            let after = self.case(counts.add(job, &log))?;
            self.outcomes.count_added(&name, &log, &after);
            if counts.take(&after) {
                added.push(log);
            }
        }
        self.other_order(job, &counts, added)?;
        self.uses_text(job, &counts)?;
        let mut graph = job.clone();
        if self.rng.once_in(4) {
            damage::damage_graph(&mut self.rng, &mut graph);
        }
        let extreme = Counts::extreme(&mut self.rng, job);
        let (_, log) = uses::log(&mut self.rng, job);
        self.case(extreme.add(&graph, &log))?;
        self.uses_text(&graph, &extreme)?;
        self.damaged_words(job, &log)
    }

    /// The same logs in another order leave the same counts.
    fn other_order(&mut self, job: &Job, counts: &Counts, mut added: Vec<Vec<u32>>) -> Result<(), Failure> {
        let mut other = Counts::none();
        self.rng.shuffle(&mut added);
        for (place, log) in added.iter().enumerate() {
            let case = other.add(job, log);
            let after = self.case(case.clone())?;
            other.take(&after);
            if place + 1 == added.len() && other != *counts {
                let message =
                    format!("the order of logs matters: {counts:?}, and in another order {other:?}");
                return Err(Failure { case: Box::new(case), out: None, message });
            }
        }
        self.outcomes.count(format!("run of {} logs added in another order", added.len()));
        Ok(())
    }

    /// The text of counts, with buffers of lengths around what it needs.
    fn uses_text(&mut self, graph: &Job, counts: &Counts) -> Result<(), Failure> {
        let needed = bytes(&counts.write(graph, 0));
        for length in [needed - 1, needed, self.length(needed)] {
            self.case(counts.write(graph, length))?;
        }
        Ok(())
    }

    /// At times a short log, every word of it damaged in turn.
    fn damaged_words(&mut self, job: &Job, log: &[u32]) -> Result<(), Failure> {
        if log.len() > 60 || !self.rng.once_in(40) {
            return Ok(());
        }
        for place in 0..log.len() {
            for word in [log[place] ^ 1, job.kind.len() as u32, u32::MAX] {
                let mut damaged = log.to_vec();
                damaged[place] = word;
                self.case(Counts::none().add(job, &damaged))?;
            }
        }
        self.outcomes.count("log damaged word by word");
        Ok(())
    }
}

/// At times a length for `out`.
fn out_length(rng: &mut Rng) -> Option<usize> {
    rng.once_in(8).then(|| rng.pick(&[0, 1, 3, 7, 8, 11, 12, 15, 16, 17, 18]))
}

/// A call of the router.
fn route(job: &Job, length: usize, log: Vec<u32>) -> Case {
    Case::Route { job: job.clone(), terms: TERMS, used: None, aimed: false, work: work(length), log }
}

/// A call of the writer of either text, with a buffer of this length.
fn write(picture: bool, source: &[u16], log: &[u32], length: usize) -> Case {
    Case::Write { picture, source: source.to_vec(), log: log.to_vec(), buffer: vec![0xb7; length] }
}

/// A job's log as the plain router writes it, a few iterations of it at most.
pub fn real_log(job: &Job) -> Vec<u32> {
    let mut job = job.clone();
    job.limit = job.limit.min(4);
    let after = compare::plain(&route(&job, 8 * job.kind.len(), vec![0; 3_000]));
    let words = after.answer.numbers[2] as usize;
    let Case::Route { mut log, .. } = after.case else { return Vec::new() };
    log.truncate(words);
    log
}

/// The bytes that a text needs by the plain writer, asked with an empty buffer; 1 where the call is refused for something else.
fn bytes(empty: &Case) -> usize {
    let after = compare::plain(empty);
    match after.answer.refusal[..] {
        [11, needed] => needed as usize,
        _ => 1,
    }
}
