//! `route`: the routes text of jobs, as the proved writer makes it.

mod json;
mod plan;

use super::Command;
use crate::args::{flag, valued, Args};
use crate::console::Console;
use crate::failure::{Failure, Status};
use crate::files::{shown, Output, Text};
use crate::many::side_by_side;
use crate::table::counted;
use crate::watch::{Jobs, Watch};
use crate::{interrupt, run, verdict};
use arvumnao::{Aimed, Answer, Job, Log, Progress, Refusal};
use plan::Plan;
use std::ffi::OsStr;
use std::ops::ControlFlow;

pub const COMMAND: Command = Command {
    name: "route",
    summary: "route jobs, and write their routes texts",
    usage: "JOB.. [-o FILE | -d DIR] [--log FILE] [--limit N] [--resume LOG] [--aimed] [-j N] [--json]",
    about: "\
Writes the proved writer's routes text of each job, to standard output unless a file or folder is named. On a
terminal it shows a row for each iteration. A refused job is reported on standard error, and nothing is written for it.
A file appears under its name when it is complete. Ctrl-C ends a run after the current iteration and keeps the log of
the whole iterations: in the file that --log names, else in NAME.log; a second Ctrl-C ends at once.",
    options: &[
        valued(Some('o'), "output", "FILE", "write the routes to FILE"),
        valued(Some('d'), "directory", "DIR", "write DIR/NAME.routes for each job, and DIR/NAME.log of one that was stopped"),
        valued(None, "log", "FILE", "write the log, a line for each record, to FILE; also if the limit was reached"),
        valued(None, "limit", "N", "the most iterations, 1 to 100, in place of the job's own"),
        valued(None, "resume", "LOG", "continue from a log that --log or Ctrl-C left"),
        flag(None, "aimed", "use the search that aims, and report how many nodes it expanded"),
        valued(Some('j'), "jobs", "N", "route N jobs at a time; 0: the number of cores"),
        flag(None, "json", "write a JSON object in a line for each job, refused ones too"),
    ],
    several: true,
    run,
};

/// The results of a job.
struct Done {
    status: Status,
    /// What goes to its output.
    data: Option<Vec<u8>>,
    /// A log, with where it goes.
    log: Option<(Output, String)>,
    /// What is reported about it, in whole lines.
    told: String,
}

fn run(args: &Args, console: &Console) -> Result<Status, Failure> {
    let plan = Plan::of(args)?;
    // standard input is read first: Ctrl-C must end the waiting for it
    let input = plan.jobs.iter().find(|job| *job == "-").map(|job| Text::read(job)).transpose()?;
    let resumed = plan.resume.as_deref().map(Text::read_long).transpose()?;
    interrupt::listen();
    let (mut status, mut gathered, mut left) = (Status::Routed, Vec::new(), 0);
    let mut jobs = Jobs::new(console, plan.jobs.len());
    let work = |place: usize| {
        (!interrupt::came())
            .then(|| plan.perform(&plan.jobs[place], input.as_ref(), resumed.as_ref(), console))
    };
    side_by_side(plan.jobs.len(), plan.workers, work, |place, done| {
        jobs.erase();
        let ended = match done {
            None => {
                left += 1;
                Ok(Status::Interrupted)
            }
            Some(done) => done.and_then(|done| plan.write(place, done, &mut gathered, console)),
        };
        status = status.max(or_told(ended, console)?);
        jobs.done();
        Ok(())
    })?;
    drop(jobs);
    if left > 0 {
        console.tell(&format!("{} not begun", counted(left, "job")));
    }
    if plan.gathers() {
        plan.outputs[0].write(&gathered)?;
    }
    Ok(status)
}

/// Reports a job's failure and continues with the others; if nobody reads the output any more, it stops.
fn or_told(ended: Result<Status, Failure>, console: &Console) -> Result<Status, Failure> {
    ended.or_else(|failure| match failure {
        Failure::ClosedPipe => Err(failure),
        _ => {
            console.fail(&failure);
            Ok(failure.status())
        }
    })
}

impl Plan {
    /// Reads and routes a job.
    fn perform(
        &self,
        name: &OsStr,
        input: Option<&Text>,
        resumed: Option<&Text>,
        console: &Console,
    ) -> Result<Done, Failure> {
        let read;
        let text = match input {
            Some(input) if name == "-" => input,
            _ => {
                read = Text::read(name)?;
                &read
            }
        };
        let job = Job::read(&text.bytes).map(|job| self.limited(job));
        let job = match job {
            Ok(job) => job,
            Err(refusal) => return Ok(self.refused(text, &refusal, console)),
        };
        let log = match resumed.map(|log| Log::read(&log.bytes, &job.nets)).transpose() {
            Ok(log) => log,
            Err(refusal) => return Ok(self.refused_log(resumed.unwrap_or(text), &refusal, console)),
        };
        let Aimed { answer, expanded } = self.route(&job, log.as_ref(), console);
        let mut done = match &answer {
            Ok(answer) => self.routed(text, &job, answer)?,
            Err(refusal @ Refusal::Diverges { .. }) => {
                return Ok(self.refused_log(resumed.unwrap_or(text), refusal, console))
            }
            Err(refusal) => self.refused(text, refusal, console),
        };
        if self.aimed() {
            done.told += &format!("{}: nodes expanded: {expanded}\n", text.name);
        }
        done.log = self.log_of(name, &answer);
        Ok(done)
    }

    /// Routes a job, or continues from a log, and shows a row for each iteration if it is the only job.
    fn route(&self, job: &Job, log: Option<&Log>, console: &Console) -> Aimed {
        let mut watch = (self.jobs.len() == 1).then(|| Watch::new(console, job.terms.limit));
        let look = |progress: &Progress| {
            if let Some(watch) = &mut watch {
                watch.row(progress);
            }
            if interrupt::came() {
                return ControlFlow::Break(());
            }
            ControlFlow::Continue(())
        };
        match log {
            Some(log) => job.resume_with(self.search, log, look),
            None => job.route_with(self.search, look),
        }
    }

    fn routed(&self, text: &Text, job: &Job, answer: &Answer) -> Result<Done, Failure> {
        let routes = answer.log.routes(&job.nets).map_err(|refusal| run::broken(&text.name, &refusal))?;
        let told = format!(
            "{}: settled in iteration {}, after {} turns\n",
            text.name, answer.iteration, answer.turns
        );
        let data = if self.json { json::routed(&text.name, &routes) } else { routes };
        Ok(Done { status: Status::Routed, data: Some(data.into_bytes()), log: None, told })
    }

    fn refused(&self, text: &Text, refusal: &Refusal, console: &Console) -> Done {
        let told = verdict::of_job(text, refusal, console);
        let data = self.json.then(|| json::refused(&text.name, refusal).into_bytes());
        Done { status: Status::of(refusal), data, log: None, told }
    }

    /// A log that a run can't continue from.
    fn refused_log(&self, log: &Text, refusal: &Refusal, console: &Console) -> Done {
        let told = verdict::of_log(log, refusal, console);
        let data = self.json.then(|| json::refused(&log.name, refusal).into_bytes());
        Done { status: Status::of(refusal), data, log: None, told }
    }

    /// Writes the results of a job: first the log, which takes longest to make again. If one file takes all jobs, its data is gathered.
    fn write(
        &self,
        place: usize,
        done: Done,
        gathered: &mut Vec<u8>,
        console: &Console,
    ) -> Result<Status, Failure> {
        if done.status == Status::Routed {
            if console.watched() || self.aimed() {
                console.say(done.told.trim_end());
            }
        } else {
            console.put(&done.told);
        }
        let logged = done.log.map_or(Ok(()), |(output, log)| {
            output.write(log.as_bytes())?;
            self.tell_log(place, &output, done.status, console);
            Ok(())
        });
        // an error in one file doesn't keep the other from being written
        match done.data {
            Some(data) if self.gathers() => gathered.extend(data),
            Some(data) => self.outputs[place].write(&data)?,
            None => self.tell_old(place, console),
        }
        logged?;
        Ok(done.status)
    }

    /// Says where the log of a stopped run is, and how to continue from it: after its limit under a higher one.
    fn tell_log(&self, place: usize, output: &Output, status: Status, console: &Console) {
        let limit = match (status, self.limit) {
            (Status::NotRouted, _) => String::from(" --limit N"),
            (Status::Interrupted, None) => String::new(),
            (Status::Interrupted, Some(limit)) => format!(" --limit {limit}"),
            _ => return,
        };
        if let Output::File(path) = output {
            let (job, path) = (self.jobs[place].to_string_lossy(), path.display());
            console.say(&format!(
                "{path} has its log; to continue: arvumnao route {job}{limit} --resume {path}"
            ));
        }
    }

    /// If a job is refused, a file of an earlier run stays; the user must know that.
    fn tell_old(&self, place: usize, console: &Console) {
        if let Output::File(path) = &self.outputs[place] {
            if path.is_file() {
                console.tell(&format!("{}: is left as it was", path.display()));
            }
        }
    }
}

/// For the plan's messages.
fn names(jobs: &[&OsStr]) -> String {
    jobs.iter().map(|job| shown(job)).collect::<Vec<_>>().join(" and ")
}
