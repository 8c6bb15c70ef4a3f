//! nextpnr-generic on the same graph: each node a wire, each edge a pip that costs what the node does to which it leads, each pin of a net a
//! bel with a cell. `nextpnr.py`, which nextpnr runs, builds it and times the routing alone.

use crate::legal::Branches;
use crate::window::Window;
use job::{cost, Job};
use std::fmt::Write;
use std::path::{Path, PathBuf};
use std::process::{Child, Command, Stdio};
use std::time::{Duration, Instant};

pub const PROGRAM: &str = "nextpnr-generic";
const SCRIPT: &str = include_str!("nextpnr.py");

/// What a wire of one tile costs, in nanoseconds, as a pip does in nextpnr's own example of a generic architecture.
const TILE: f64 = 0.05;

/// A run that takes longer is given up.
const LONGEST: Duration = Duration::from_secs(60);

#[derive(Clone, Copy, PartialEq, Eq, Debug)]
pub enum Router {
    One,
    Two,
}

impl Router {
    pub fn name(self) -> &'static str {
        match self {
            Router::One => "router1",
            Router::Two => "router2",
        }
    }
}

/// A router and the estimate by which its search aims.
#[derive(Clone, Copy, PartialEq, Eq, Debug)]
pub struct Setting {
    pub router: Router,
    /// nextpnr's default, twice what a tile costs here; else what it costs.
    pub eager: bool,
}

pub const SETTINGS: [Setting; 4] = [
    Setting { router: Router::One, eager: false },
    Setting { router: Router::Two, eager: false },
    Setting { router: Router::One, eager: true },
    Setting { router: Router::Two, eager: true },
];

/// One routing.
#[derive(Debug)]
pub struct Run {
    pub settled: bool,
    /// Processor time of the call.
    pub time: Duration,
    /// That of a second call, which finds nothing left to route.
    pub again: Duration,
    /// Of router2 the iterations, of router1 the arcs that it routed.
    pub steps: u64,
    pub branches: Branches,
}

/// A job as nextpnr.py reads it.
fn graph(window: &Window, job: &Job) -> String {
    let mut text = String::new();
    for (node, (x, y)) in window.place.iter().enumerate() {
        let _ = writeln!(text, "N,{node},{x},{y}");
    }
    for (from, row) in window.rows.iter().enumerate() {
        for (&to, (x, y)) in row.iter().zip(&window.switch_place[from]) {
            let delay = cost::base(job.kind[to as usize]) as f64 / 20.0 * TILE;
            let _ = writeln!(text, "E,{from},{to},{x},{y},{delay}");
        }
    }
    for (net, source) in job.source.iter().enumerate() {
        let _ = writeln!(text, "S,{net},{source}");
        job.sinks(net).iter().for_each(|sink| {
            let _ = writeln!(text, "T,{net},{sink}");
        });
    }
    text
}

/// The numbers after a line's letter.
fn numbers(line: &str) -> Vec<u64> {
    line[2..].split(',').filter_map(|field| field.parse().ok()).collect()
}

/// The answer file: for each routing `A,settled,time,again` and its branches.
fn read_answer(text: &str, nets: usize) -> Vec<Run> {
    let mut runs: Vec<Run> = Vec::new();
    for line in text.lines() {
        match (line.as_bytes()[0], &numbers(line)[..], runs.last_mut()) {
            (b'A', &[settled, time, again], _) => runs.push(Run {
                settled: settled == 1,
                time: Duration::from_nanos(time),
                again: Duration::from_nanos(again),
                steps: 0,
                branches: vec![Vec::new(); nets],
            }),
            (b'B', &[net, from, to], Some(run)) => run.branches[net as usize].push((from as u16, to as u16)),
            _ => panic!("nextpnr.py answers {line}"),
        }
    }
    runs
}

/// The steps of each routing in nextpnr's log, in order: the last `iter=` of each run of router2, the last count in router1's table.
fn read_steps(log: &str, router: Router) -> Vec<u64> {
    let mut steps = Vec::new();
    for line in log.lines() {
        let line = line.trim_start_matches("Info:").trim_start();
        if line.starts_with(match router {
            Router::One => "Routing..",
            Router::Two => "Running router2",
        }) {
            steps.push(0);
        }
        let count = match router {
            Router::One => line.split('|').next().filter(|_| line.contains('|')),
            Router::Two => line.strip_prefix("iter=").and_then(|rest| rest.split(' ').next()),
        };
        if let (Some(Ok(count)), Some(last)) = (count.map(|count| count.trim().parse()), steps.last_mut()) {
            *last = count;
        }
    }
    steps
}

/// Whether a program that was started ends well in time.
fn ends_well(child: &mut Child) -> bool {
    let start = Instant::now();
    while start.elapsed() < LONGEST {
        if let Ok(Some(status)) = child.try_wait() {
            return status.success();
        }
        std::thread::sleep(Duration::from_millis(5));
    }
    let _ = child.kill();
    let _ = child.wait();
    false
}

/// A job's files for nextpnr.
pub struct Bench {
    folder: PathBuf,
    nets: usize,
}

impl Bench {
    pub fn new(folder: &Path, window: &Window, job: &Job) -> std::io::Result<Bench> {
        std::fs::create_dir_all(folder)?;
        std::fs::write(folder.join("nextpnr.py"), SCRIPT)?;
        std::fs::write(folder.join("graph"), graph(window, job))?;
        Ok(Bench { folder: folder.to_path_buf(), nets: job.source.len() })
    }

    /// Routes so many times in one process; fewer runs come back where it was given up.
    pub fn route(&self, setting: Setting, times: usize) -> std::io::Result<Vec<Run>> {
        let [script, graph, answer, log] =
            ["nextpnr.py", "graph", "answer", "log"].map(|name| self.folder.join(name));
        std::fs::write(&answer, "")?;
        let (router, estimate) = (setting.router, if setting.eager { 2.0 * TILE } else { TILE });
        let mut child = Command::new(PROGRAM)
            .args(["--quiet", "--threads", "1", "--router", router.name()])
            .arg("--run")
            .arg(script)
            .arg("--log")
            .arg(&log)
            .env("PEERS_GRAPH", graph)
            .env("PEERS_ANSWER", &answer)
            .env("PEERS_TIMES", times.to_string())
            .env("PEERS_ESTIMATE", estimate.to_string())
            .stdout(Stdio::null())
            .stderr(Stdio::null())
            .spawn()?;
        let well = ends_well(&mut child);
        let mut runs = read_answer(&std::fs::read_to_string(answer)?, self.nets);
        // the second call of each routing has a count too
        let steps = read_steps(&std::fs::read_to_string(log)?, router);
        runs.iter_mut().zip(steps.iter().step_by(2)).for_each(|(run, &steps)| run.steps = steps);
        if !well {
            runs.pop();
        }
        Ok(runs)
    }
}

#[cfg(test)]
mod tests {
    use super::*;

    #[test]
    fn answers_and_logs_are_read() {
        let runs = read_answer("A,1,2000,30\nB,1,4,5\nA,0,7,8\n", 2);
        assert_eq!(runs.len(), 2);
        assert_eq!(
            (runs[0].settled, runs[0].time, runs[0].again),
            (true, Duration::from_nanos(2_000), Duration::from_nanos(30))
        );
        assert_eq!((&runs[0].branches, runs[1].settled), (&vec![vec![], vec![(4, 5)]], false));
        let one = "Info: Routing..\nInfo:    IterCnt |  w/ripup |\nInfo:        741 |      451 |\nInfo: Routing..\nInfo:          0 |  0 |\n";
        assert_eq!(read_steps(one, Router::One), [741, 0]);
        let two = "Info: Running router2...\nInfo:     iter=1 wires=9\nInfo:     iter=2 wires=9\nInfo: Running router2...\n";
        assert_eq!(read_steps(two, Router::Two), [2, 0]);
    }
}
