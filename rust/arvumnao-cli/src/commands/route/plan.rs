//! What the arguments of `route` ask for.

use super::names;
use crate::args::Args;
use crate::failure::Failure;
use crate::files::{self, Output};
use crate::{many, run};
use arvumnao::{Answer, Job, Refusal, Search};
use std::collections::HashMap;
use std::ffi::{OsStr, OsString};
use std::fs;
use std::path::{Path, PathBuf};

pub struct Plan {
    pub jobs: Vec<OsString>,
    /// Where each job's data goes.
    pub outputs: Vec<Output>,
    pub log: Option<Output>,
    pub resume: Option<OsString>,
    pub search: Search,
    pub json: bool,
    pub workers: usize,
    pub limit: Option<u32>,
    /// The folder for what is made of each job.
    folder: Option<PathBuf>,
}

impl Plan {
    /// Reads the arguments, and tests that the outputs can be written before any job is routed.
    pub fn of(args: &Args) -> Result<Plan, Failure> {
        args.apart("output", "directory")?;
        let log = args.path("log").map(|name| Output::named(Some(name)));
        let mut plan = Plan {
            jobs: args.jobs.clone(),
            outputs: vec![Output::named(args.path("output")); args.jobs.len()],
            log,
            resume: args.value("resume").map(OsStr::to_os_string),
            search: if args.has("aimed") { Search::Aimed } else { Search::Plain },
            json: args.has("json"),
            workers: many::workers(args.number("jobs", 0..=1_024)?),
            limit: args.number("limit", 1..=100)?,
            folder: args.path("directory").map(Path::to_path_buf),
        };
        plan.test(args)?;
        if let Some(folder) = plan.folder.clone() {
            plan.spread(&folder)?;
        }
        plan.outputs.iter().chain(&plan.log).try_for_each(|output| output.test(&plan.jobs))?;
        Ok(plan)
    }

    /// Refuses options that exclude each other.
    fn test(&self, args: &Args) -> Result<(), Failure> {
        let several = self.jobs.len() > 1;
        for long in ["log", "resume"] {
            if several && args.has(long) {
                return Err(Failure::usage(format!("--{long} is of one job, and several are named")));
            }
        }
        if several && args.has("output") && !self.json {
            return Err(Failure::usage("-o takes the routes of one job: name a folder by -d for several"));
        }
        if matches!(&self.log, Some(log @ Output::File(_)) if self.outputs.contains(log)) {
            return Err(Failure::usage("routes and log can't both go to one file"));
        }
        if self.log == Some(Output::Standard)
            && self.outputs.contains(&Output::Standard)
            && self.folder.is_none()
        {
            return Err(Failure::usage("routes and log can't both go to standard output: name a file by -o"));
        }
        if self.jobs.iter().filter(|job| *job == "-").count() > 1 {
            return Err(Failure::usage("standard input is one job"));
        }
        let input = self.jobs.iter().any(|job| job == "-");
        if input && self.resume.as_deref().is_some_and(|log| log == "-") {
            return Err(Failure::usage("job and log can't both come from standard input"));
        }
        Ok(())
    }

    /// Gives each job a file of its own in a folder, which is made if it isn't there.
    fn spread(&mut self, folder: &Path) -> Result<(), Failure> {
        fs::create_dir_all(folder).map_err(|error| Failure::file(folder.display(), &error))?;
        let ending = if self.json { "json" } else { "routes" };
        let mut owners: HashMap<PathBuf, &OsStr> = HashMap::new();
        for (job, output) in self.jobs.iter().zip(&mut self.outputs) {
            let path = folder.join(format!("{}.{ending}", files::stem(job)));
            if let Some(other) = owners.insert(path.clone(), job) {
                let both = names(&[other, job]);
                return Err(Failure::usage(format!("{both} would both go to {}", path.display())));
            }
            *output = Output::File(path);
        }
        Ok(())
    }

    /// The job under the limit that was asked for.
    pub fn limited(&self, mut job: Job) -> Job {
        job.terms.limit = self.limit.unwrap_or(job.terms.limit);
        job
    }

    /// Whether several jobs go into one file.
    pub fn gathers(&self) -> bool {
        self.jobs.len() > 1 && self.folder.is_none() && self.outputs[0] != Output::Standard
    }

    pub fn aimed(&self) -> bool {
        self.search == Search::Aimed
    }

    /// The log's text and its file, if it is kept. The log of a run that Ctrl-C stopped is always kept; with a folder also that of a run
    /// which its limit stopped.
    pub fn log_of(&self, job: &OsStr, answer: &Result<Answer, Refusal>) -> Option<(Output, String)> {
        let (log, stopped) = match answer {
            Ok(answer) => (&answer.log, false),
            Err(refusal) => (run::kept(refusal)?, matches!(refusal, Refusal::Stopped { .. })),
        };
        let output = match (&self.log, &self.folder) {
            (Some(output), _) => output.clone(),
            (None, Some(folder)) if answer.is_err() => {
                Output::File(folder.join(format!("{}.log", files::stem(job))))
            }
            (None, _) if stopped => Output::File(files::unused(Path::new(""), &files::stem(job))),
            _ => return None,
        };
        Some((output, log.text()))
    }
}
