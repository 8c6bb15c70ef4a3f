//! A checker of demand 3: one statement about a job's whole log and its
//! answer, the same under either rule; in a timed job it is about the sink whose
//! turn it is. It routes nothing; which of several
//! cheapest paths was taken, which nets are due and in what order, are left to
//! the comparison with a plain router.

mod answer;
mod fault;
mod job;
pub mod joined;
pub mod paths;
pub mod prices;
pub mod records;
pub mod trees;
mod turns;

pub use fault::Fault;
pub use job::{Job, Timing, Tuning};

/// Checks the answer to a job with sound tables and enough work memory, whose
/// nets of one source are joined here. `log` is the whole lent log, `words` the words used, `refusal` 01's
/// numbers, empty when accepted.
pub fn check(
    job: &Job,
    log: &[u32],
    refusal: &[u64],
    iteration: u64,
    turns: u64,
    words: u64,
) -> Result<(), Fault> {
    check_resumed(job, 0, log, refusal, iteration, turns, words)
}

/// Checks the answer of a resume that has taken up so many words: the turns in them need not be cheapest, all else holds of the whole log.
pub fn check_resumed(
    job: &Job,
    lent: u64,
    log: &[u32],
    refusal: &[u64],
    iteration: u64,
    turns: u64,
    words: u64,
) -> Result<(), Fault> {
    let joined = joined::Joined::new(job);
    let job = &joined.job(job);
    let records = records::read(log, words)?;
    let logged = records.len() as u64;
    if turns != logged {
        return Err(Fault::TurnCount { reported: turns, logged });
    }
    let lent = records::read(log, lent)?.len() as u64;
    let trees = turns::walk(job, &records, lent)?;
    let room = log.len() as u64 - words;
    let answer = answer::Answer { refusal, iteration, turns, words, room };
    answer::check(job, &records, &trees, &answer)
}

/// Checks the turns in so many words of a log, whoever wrote it and wherever it ends: demand 3's clauses about turns alone. How many there are.
pub fn check_turns(job: &Job, log: &[u32], words: u64) -> Result<u64, Fault> {
    let joined = joined::Joined::new(job);
    let records = records::read(log, words)?;
    turns::walk(&joined.job(job), &records, 0)?;
    Ok(records.len() as u64)
}
