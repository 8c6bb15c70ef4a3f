//! One job, read and routed.

use crate::console::Console;
use crate::failure::{Failure, Status};
use crate::files::Text;
use crate::verdict;
use arvumnao::{Job, Log, Refusal};
use std::ffi::OsStr;

/// A job with the log of its run.
pub struct Run {
    pub name: String,
    pub job: Job,
    pub log: Log,
    /// The limit was reached: some nodes are overfull.
    pub refusal: Option<Refusal>,
}

impl Run {
    /// Reads and routes a job. A refused job without a log is reported and ends the command; one that the limit stopped is reported and kept.
    pub fn of(name: &OsStr, console: &Console) -> Result<Run, Failure> {
        let text = Text::read(name)?;
        let told = |refusal: &Refusal| {
            console.put(&verdict::of_job(&text, refusal, console));
            Failure::Told(Status::of(refusal))
        };
        let job = Job::read(&text.bytes).map_err(|refusal| told(&refusal))?;
        let (log, refusal) = match job.route() {
            Ok(answer) => (answer.log, None),
            Err(refusal) => {
                let failure = told(&refusal);
                (kept(&refusal).cloned().ok_or(failure)?, Some(refusal))
            }
        };
        Ok(Run { name: text.name, job, log, refusal })
    }

    /// The status with which the command ends.
    pub fn status(&self) -> Status {
        self.refusal.as_ref().map_or(Status::Routed, Status::of)
    }
}

/// The log of a run that was stopped.
pub fn kept(refusal: &Refusal) -> Option<&Log> {
    match refusal {
        Refusal::LogFull { log, .. } | Refusal::Limit { log, .. } | Refusal::Stopped { log, .. } => Some(log),
        _ => None,
    }
}

/// A refusal of a log that a run has just made: a fault of the library or the wrapper. Nothing is printed then.
pub fn broken(name: &str, refusal: &Refusal) -> Failure {
    Failure::File(name.to_string(), format!("its log is not what the run says: {refusal}"))
}
