//! `report`: where a job's nets went, what that cost them, and which nodes are crowded.

mod chart;
mod figures;
mod heat;
mod json;
mod page;
mod places;
mod sections;

use super::Command;
use crate::args::{flag, valued, Args};
use crate::console::Console;
use crate::failure::{Failure, Status};
use crate::files::Output;
use crate::run::{broken, Run};
use figures::Figures;
use places::Places;

pub const COMMAND: Command = Command {
    name: "report",
    summary: "report each net's detour, the crowded nodes, delays and the use of wires",
    usage: "JOB [--top N] [--json | --html FILE [--places FILE]] [-o FILE]",
    about: "\
Routes a job and prints tables: the iterations; the detour of each net, which is what its tree costs at base costs
against its tree of iteration 1, in which every net is routed as if alone; the most crowded nodes with their
histories; in a timed job the delay to each sink against iteration 1; and the use of each kind of wire. A job whose
limit was reached is reported on too. --html writes one page with a chart and a heat map, which needs no other file.",
    options: &[
        valued(None, "top", "N", "the most rows of a table; 10 unless named, in JSON all"),
        flag(None, "json", "print a JSON object with all numbers"),
        valued(None, "html", "FILE", "write a page to FILE"),
        valued(None, "places", "FILE", "place the nodes of the heat map by lines node,x,y"),
        valued(Some('o'), "output", "FILE", "write to FILE"),
    ],
    several: false,
    run,
};

fn run(args: &Args, console: &Console) -> Result<Status, Failure> {
    args.apart("json", "html")?;
    args.apart("output", "html")?;
    if args.has("places") && !args.has("html") {
        return Err(Failure::usage("--places is for the page that --html writes"));
    }
    let top = args.number("top", 1..=4_096)?;
    let output = Output::named(args.path("output").or(args.path("html")));
    output.test(&args.jobs)?;
    let places = args.value("places").map(Places::read).transpose()?;
    let run = Run::of(&args.jobs[0], console)?;
    if let Some(places) = &places {
        places.test(run.job.block.kind.len())?;
    }
    let figures = Figures::of(&run).map_err(|refusal| broken(&run.name, &refusal))?;
    let shown = top.unwrap_or(10) as usize;
    let text = if args.has("json") {
        json::of(&figures, top.map_or(usize::MAX, |top| top as usize))
    } else if args.has("html") {
        page::of(&figures, shown, places.as_ref())
    } else {
        sections::text(&figures, shown)
    };
    output.write(text.as_bytes())?;
    Ok(run.status())
}
