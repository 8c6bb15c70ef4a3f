//! `picture`: a job's routes as a drawing.

use super::Command;
use crate::args::{flag, valued, Args};
use crate::console::Console;
use crate::failure::{Failure, Status};
use crate::files::Output;
use crate::routes::Routes;
use crate::run::{broken, Run};
use arvumnao::kind;
use std::collections::BTreeSet;
use std::fmt::Write as _;
use std::io::{ErrorKind, Write as _};
use std::process::{Command as Process, Stdio};
use std::thread;

pub const COMMAND: Command = Command {
    name: "picture",
    summary: "draw the routes: a colour a net, a shape a kind of node, overfull nodes red",
    usage: "JOB [--dot | --svg] [--net N] [-o FILE]",
    about: "\
Routes a job and prints its routes as a graph in the DOT language of Graphviz, or with --svg as a drawing, which
Graphviz's program dot makes. The branches are the proved writer's. A job whose limit was reached is drawn too, as
far as it came; its overfull nodes are red, with how many nets use them and how many may.",
    options: &[
        flag(None, "dot", "print the graph; this is what it does unless --svg is named"),
        flag(None, "svg", "print the drawing, by Graphviz"),
        valued(None, "net", "N", "the branches of that net alone"),
        valued(Some('o'), "output", "FILE", "write to FILE"),
    ],
    several: false,
    run,
};

fn run(args: &Args, console: &Console) -> Result<Status, Failure> {
    args.apart("dot", "svg")?;
    let net = args.number("net", 0..=511)?;
    let output = Output::named(args.path("output"));
    output.test(&args.jobs)?;
    let run = Run::of(&args.jobs[0], console)?;
    let graph = graph(&run, net)?;
    if args.has("svg") {
        output.write(&drawn(&graph)?)?;
    } else {
        output.write(graph.as_bytes())?;
    }
    Ok(run.status())
}

/// How a graph begins.
const HEAD: &str = "\
digraph r {
rankdir=LR;
node [style=filled, fillcolor=white, fontname=\"sans-serif\"];
edge [fontname=\"sans-serif\"];
";

/// The graph in the DOT language.
fn graph(run: &Run, net: Option<u32>) -> Result<String, Failure> {
    let told = |refusal| broken(&run.name, &refusal);
    let mut routes = Routes::of(&run.log.routes(&run.job.nets).map_err(told)?);
    if let Some(net) = net {
        known(run, &routes, net)?;
        routes.branches.retain(|branch| branch[0] == net);
    }
    let nodes: BTreeSet<u32> = routes.branches.iter().flat_map(|branch| [branch[1], branch[2]]).collect();
    let overfull = run.log.overfull(&run.job).map_err(told)?;
    let mut text = String::from(HEAD);
    for node in nodes {
        let crowd = overfull.iter().find(|crowd| crowd.node == node);
        let crowd = crowd.map(|crowd| format!("{}/{}", crowd.nets.len(), crowd.capacity));
        text += &node_line(node, run.job.block.kind[node as usize], crowd.as_deref());
    }
    for [net, from, to] in routes.branches {
        let colour = colour(net);
        let _ =
            writeln!(text, "{from} -> {to} [label=\"{net}\", color=\"{colour}\", fontcolor=\"{colour}\"];");
    }
    Ok(text + "}\n")
}

/// A net that has no branches is a mistake, or was joined into another net.
fn known(run: &Run, routes: &Routes, net: u32) -> Result<(), Failure> {
    if routes.branches.iter().any(|branch| branch[0] == net) {
        return Ok(());
    }
    let nets = run.job.nets.source.len();
    Err(Failure::usage(match routes.joined.iter().find(|joined| joined[0] == net) {
        Some([_, first]) => {
            format!("{}: net {net} was joined into net {first}, of the same source", run.name)
        }
        None => format!("{}: has no net {net}, but nets 0 to {}", run.name, nets - 1),
    }))
}

/// A node: its shape shows the kind, red that it is overfull.
fn node_line(node: u32, kind: u8, crowd: Option<&str>) -> String {
    let (shape, below) = match kind {
        kind::SOURCE => ("invhouse", String::from("source")),
        kind::SINK => ("house", String::from("sink")),
        kind::OUTPUT_PIN => ("cds", String::from("output")),
        kind::INPUT_PIN => ("larrow", String::from("input")),
        wire => ("box", format!("wire {}", wire.saturating_sub(3))),
    };
    let (crowd, colours) = match crowd {
        Some(crowd) => (format!("\\n{crowd}"), ", color=red, fillcolor=\"#ffb0b0\", penwidth=2"),
        None => (String::new(), ""),
    };
    format!("{node} [shape={shape}, label=\"{node}\\n{below}{crowd}\"{colours}];\n")
}

/// A colour for each net, far from the next one's and from red: hue, saturation and value.
fn colour(net: u32) -> String {
    let turn = (f64::from(net) * 0.618_034).fract();
    format!("{:.3} 0.850 {:.3}", 0.1 + 0.8 * turn, if net % 2 == 0 { 0.75 } else { 0.55 })
}

/// The drawing that Graphviz makes of a graph.
fn drawn(graph: &str) -> Result<Vec<u8>, Failure> {
    let trouble = |error: &std::io::Error| match error.kind() {
        ErrorKind::NotFound => Failure::File(
            String::from("dot"),
            String::from(
                "Graphviz is not installed (Debian's package graphviz); --dot prints the graph without it",
            ),
        ),
        _ => Failure::file("dot", error),
    };
    let process = Process::new("dot").arg("-Tsvg").stdin(Stdio::piped()).stdout(Stdio::piped()).spawn();
    let mut process = process.map_err(|error| trouble(&error))?;
    let input = process.stdin.take();
    let ended = thread::scope(|scope| {
        // dot may begin to write before it has read all its input; if it stops reading, its exit status shows that
        scope.spawn(move || input.map(|mut input| input.write_all(graph.as_bytes())));
        process.wait_with_output()
    });
    let ended = ended.map_err(|error| trouble(&error))?;
    if !ended.status.success() {
        return Err(Failure::File(String::from("dot"), format!("Graphviz failed: {}", ended.status)));
    }
    Ok(ended.stdout)
}
