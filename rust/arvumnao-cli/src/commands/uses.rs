//! `uses`: how much each kind of wire is used, over jobs of one block.

use super::Command;
use crate::args::{flag, valued, Args};
use crate::console::Console;
use crate::failure::{Failure, Status};
use crate::files::{shown, Output, Text};
use crate::many::{side_by_side, workers};
use crate::table::Table;
use crate::watch::Jobs;
use crate::{kinds, verdict};
use arvumnao::{Block, Job, Refusal, UseCounts};
use std::ffi::OsStr;

pub const COMMAND: Command = Command {
    name: "uses",
    summary: "count how much each kind of wire is used, over jobs of one block",
    usage: "JOB.. [--skip-refused] [--csv] [-j N] [-o FILE]",
    about: "\
Routes jobs of one block and prints, for each kind of node that the block has, how often it was used and how often
it could have been, as the proved library counts, with the percentage. A refused job is reported on standard error,
and no counts are printed, unless --skip-refused leaves it out. The exit status shows it in both cases.",
    options: &[
        flag(None, "skip-refused", "count the other jobs if some are refused"),
        flag(None, "csv", "print kind,name,uses,capacity,percent with a head line"),
        valued(Some('j'), "jobs", "N", "route N jobs at a time; 0: as many as there are cores"),
        valued(Some('o'), "output", "FILE", "write to FILE"),
    ],
    several: true,
    run,
};

/// What came of a job: its block and the counts of its log, or the status of a refusal and what is reported about it.
type Counted = Result<(Block, UseCounts), (Status, String)>;

/// The counts so far.
struct Sum {
    /// The block, with the name of the job that it was taken from.
    block: Option<(Block, String)>,
    counts: UseCounts,
    status: Status,
}

fn run(args: &Args, console: &Console) -> Result<Status, Failure> {
    let output = Output::named(args.path("output"));
    output.test(&args.jobs)?;
    let workers = workers(args.number("jobs", 0..=1_024)?);
    let mut sum = Sum { block: None, counts: UseCounts::default(), status: Status::Routed };
    let mut jobs = Jobs::new(console, args.jobs.len());
    let work = |place: usize| count(&args.jobs[place], console);
    side_by_side(args.jobs.len(), workers, work, |place, counted| {
        jobs.erase();
        sum.take(&shown(&args.jobs[place]), counted?, console)?;
        jobs.done();
        Ok(())
    })?;
    drop(jobs);
    if sum.status == Status::Routed || args.has("skip-refused") {
        output.write(sum.printed(args.has("csv"))?.as_bytes())?;
    } else {
        console.say("no counts are printed, since a job was refused; --skip-refused leaves such jobs out");
    }
    Ok(sum.status)
}

/// Routes a job and counts its log alone.
fn count(name: &OsStr, console: &Console) -> Result<Counted, Failure> {
    let text = Text::read(name)?;
    let counted = || -> Result<(Block, UseCounts), Refusal> {
        let job = Job::read(&text.bytes)?;
        let mut counts = UseCounts::default();
        counts.add(&job.block, job.route()?.log)?;
        Ok((job.block, counts))
    };
    let told = |refusal: Refusal| (Status::of(&refusal), verdict::of_job(&text, &refusal, console));
    Ok(counted().map_err(told))
}

impl Sum {
    /// Adds a job's counts: those of two parts, added, are those of both.
    fn take(&mut self, name: &str, counted: Counted, console: &Console) -> Result<(), Failure> {
        let (block, counts) = match counted {
            Ok(counted) => counted,
            Err((status, told)) => {
                console.put(&told);
                self.status = self.status.max(status);
                return Ok(());
            }
        };
        let (first, of) = self.block.get_or_insert_with(|| (block.clone(), name.to_string()));
        if *first != block {
            let why = format!("its block is not that of {of}: uses are counted over jobs of one block");
            return Err(Failure::File(name.to_string(), why));
        }
        self.counts.merge(&counts).map_err(|refusal| Failure::File(name.to_string(), refusal.to_string()))
    }

    /// The library's lines, of the kinds that the block has; nothing where no job was counted.
    fn printed(&self, csv: bool) -> Result<String, Failure> {
        let Some((block, name)) = &self.block else { return Ok(String::new()) };
        let text = self.counts.text(block);
        let text = text.map_err(|refusal| Failure::File(name.clone(), refusal.to_string()))?;
        let rows = kinds::uses(&text);
        if csv {
            let line = |row: &kinds::Uses| {
                format!("{},{},{},{},{}\n", row.kind, row.name(), row.uses, row.capacity, row.percent())
            };
            return Ok(rows
                .iter()
                .fold(String::from("kind,name,uses,capacity,percent\n"), |text, row| text + &line(row)));
        }
        let mut table = Table::new(&["kind", "name", "uses", "capacity", "percent"], &[1]);
        for row in &rows {
            let numbers = [row.uses.to_string(), row.capacity.to_string(), row.percent()];
            table.row([row.kind.to_string(), row.name()].into_iter().chain(numbers).collect());
        }
        Ok(table.text())
    }
}
