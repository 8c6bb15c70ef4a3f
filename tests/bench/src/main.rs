//! Times the routers on the same jobs, checks that they agree, prints tables in Markdown: milliseconds of processor time, best of several runs.
//! Every run's outcome and log are checked against those of carried's first.
//!
//! cargo run --release -p bench [-- largest-size [command]]
//!
//! With `command` nothing but the command's table, which comes last, is printed.

mod command;
mod jobs;
mod routers;
#[cfg(feature = "proved")]
mod wrapper;

use job::table::{cell, head, line, ratio_head, ratio_line};
use job::{clock, cost, Job};
use jobs::{Shape, SHAPES, SIZES};
use routers::{Result, Router, HAS_PROVED};
use std::time::Duration;

/// Words lent for the log.
const LOG: usize = 1 << 22;
/// Runs of a router on a job: LEAST unless they take LONG, then up to MOST while they take less than SHORT in all.
const LEAST: usize = 3;
const MOST: usize = 200;
const SHORT: Duration = Duration::from_millis(200);
const LONG: Duration = Duration::from_secs(5);
/// The plain router is left out where it is expected to take longer.
const PLAIN_LIMIT: f64 = 1.0;

/// (nodes + edges) x log2 nodes: a search with a heap takes about that many steps.
fn size(job: &Job) -> f64 {
    let nodes = job.kind.len() as f64;
    (nodes + job.edge_target.len() as f64) * nodes.log2()
}

/// One job's times.
struct Row {
    shape: Shape,
    job: Job,
    result: Result,
    /// What the final trees cost, see `cost`.
    cost: u64,
    best: Vec<(Router, Duration)>,
    /// The nodes that the aimed search expands.
    expanded: Option<u64>,
}

impl Row {
    fn seconds(&self, router: Router) -> Option<f64> {
        self.best.iter().find(|b| b.0 == router).map(|b| b.1.as_secs_f64())
    }

    fn ratio(&self, over: Router, under: Router) -> Option<f64> {
        Some(self.seconds(over)? / self.seconds(under)?)
    }

    fn turns(&self) -> f64 {
        self.result.numbers[1] as f64
    }

    /// Picoseconds per turn and (nodes + edges) x log2 nodes.
    fn unit(&self, router: Router) -> Option<f64> {
        Some(self.seconds(router)? * 1e12 / self.turns() / size(&self.job))
    }

    /// Microseconds a turn.
    fn turn(&self, router: Router) -> Option<f64> {
        Some(self.seconds(router)? * 1e6 / self.turns())
    }

    /// Nodes that the aimed search expands a turn.
    fn expanded(&self) -> Option<f64> {
        Some(self.expanded? as f64 / self.turns())
    }

    fn name(&self) -> String {
        format!("{:?}", self.shape).to_lowercase()
    }

    fn outcome(&self) -> String {
        match self.result.refusal.first() {
            None => "accepted".to_string(),
            Some(number) => format!("refusal {number}"),
        }
    }
}

/// Lent memory, the same for every run.
struct Lent {
    work: Vec<u64>,
    log: Vec<u32>,
}

/// One run: the time of the call alone, and the check.
fn run_once(router: Router, job: &Job, lent: &mut Lent, wanted: &Result, wanted_log: &[u32]) -> Duration {
    let run = router.run();
    if router == Router::Audit {
        let log = &mut lent.log[..wanted_log.len()];
        log.copy_from_slice(wanted_log);
        let start = clock::cpu_time();
        let result = run(job, &mut lent.work[..8 * job.kind.len()], log);
        let time = clock::cpu_time() - start;
        assert_eq!((&result.refusal, &result.numbers), (&vec![], &wanted.numbers), "the log isn't sound");
        return time;
    }
    lent.log[..wanted_log.len()].fill(u32::MAX);
    let start = clock::cpu_time();
    let result = run(job, &mut lent.work[..8 * job.kind.len()], &mut lent.log);
    let time = clock::cpu_time() - start;
    assert_eq!(&result, wanted, "{router:?} gives another outcome");
    assert!(&lent.log[..wanted_log.len()] == wanted_log, "{router:?} gives another log");
    time
}

/// Runs the routers in turn, over and over, and keeps each one's best time.
fn measure(
    routers: &[Router],
    job: &Job,
    lent: &mut Lent,
    wanted: &Result,
    log: &[u32],
) -> Vec<(Router, Duration)> {
    let mut best: Vec<(Router, Duration)> = routers.iter().map(|&r| (r, Duration::MAX)).collect();
    let mut spent = vec![Duration::ZERO; routers.len()];
    for round in 0..MOST {
        for (slot, spent) in best.iter_mut().zip(&mut spent) {
            if *spent < SHORT || (round < LEAST && *spent < LONG) {
                let time = run_once(slot.0, job, lent, wanted, log);
                slot.1 = slot.1.min(time);
                *spent += time;
            }
        }
    }
    best
}

/// How many nodes the aimed search expands, which must be what the plain router counts where that is timed too.
fn expanded(job: &Job, lent: &mut Lent, routers: &[Router]) -> Option<u64> {
    let work = &mut lent.work[..8 * job.kind.len()];
    let count = routers.contains(&Router::Aimed).then(|| routers::aimed(job, work, &mut lent.log).1)?;
    if routers.contains(&Router::Plain) {
        assert_eq!(routers::plain_expanded(job, work, &mut lent.log), count, "aimed expands another number");
    }
    Some(count)
}

/// What the plain router may take here, from the row before.
fn plain_guess(before: Option<&Row>, job: &Job, turns: f64) -> f64 {
    match before {
        None => 0.0,
        Some(row) => row.unit(Router::Plain).map_or(f64::INFINITY, |unit| unit / 1e12 * turns * size(job)),
    }
}

/// The routers whose times are taken for a job of so many turns: the plain one too, unless it is expected to take too long.
fn chosen(before: Option<&Row>, job: &Job, turns: f64) -> Vec<Router> {
    let mut routers = routers::all();
    if plain_guess(before, job, turns) > PLAIN_LIMIT {
        routers.retain(|&r| r != Router::Plain);
    }
    routers
}

/// A job's times by the routers that are chosen by its number of turns.
fn make_row(shape: Shape, job: Job, choose: impl Fn(&Job, f64) -> Vec<Router>, lent: &mut Lent) -> Row {
    let result = Router::Carried.run()(&job, &mut [], &mut lent.log);
    let log = lent.log[..result.numbers[2] as usize].to_vec();
    let routers = choose(&job, result.numbers[1] as f64);
    let best = measure(&routers, &job, lent, &result, &log);
    let cost = cost::of_trees(&job, &log);
    let expanded = expanded(&job, lent, &routers);
    Row { shape, job, result, cost, best, expanded }
}

/// The routers side by side.
fn print_floor(rows: &[Row]) {
    use Router::*;
    head(&[
        "job",
        "nodes",
        "edges",
        "nets",
        "sinks",
        "turns",
        "proved, ms",
        "heap, ms",
        "pruned, ms",
        "carried, ms",
        "plain, ms",
        "proved / heap",
        "proved / pruned",
        "proved / carried",
    ]);
    for row in rows {
        let job = &row.job;
        let mut cells = vec![row.name()];
        let counts =
            [job.kind.len(), job.edge_target.len(), job.source.len(), job.sink.len(), row.turns() as usize];
        cells.extend(counts.map(|count| count.to_string()));
        cells.extend(
            [Proved, Heap, Pruned, Carried, Plain]
                .map(|router| cell(row.seconds(router).map(|s| s * 1e3), 3)),
        );
        cells.extend([Heap, Pruned, Carried].map(|under| cell(row.ratio(Proved, under), 2)));
        line(&cells);
    }
    println!();
    ratio_head();
    let pairs = [
        ("made-up jobs: proved / heap", Proved, Heap),
        ("made-up jobs: proved / pruned", Proved, Pruned),
        ("made-up jobs: proved / carried", Proved, Carried),
        ("made-up jobs: plain / proved", Plain, Proved),
    ];
    for (name, over, under) in pairs {
        ratio_line(name, rows.iter().map(|row| row.ratio(over, under)));
    }
}

/// The two searches side by side.
fn print_searches(rows: &[Row]) {
    use Router::*;
    head(&[
        "job",
        "nodes",
        "plain search, µs a turn",
        "search that aims, µs a turn",
        "nodes expanded a turn",
    ]);
    for row in rows {
        let mut cells = vec![row.name(), row.job.kind.len().to_string()];
        cells.extend([row.turn(Proved), row.turn(Aimed), row.expanded()].map(|number| cell(number, 1)));
        line(&cells);
    }
    println!();
    ratio_head();
    ratio_line(
        "made-up jobs: search that aims / plain search",
        rows.iter().map(|row| row.ratio(Aimed, Proved)),
    );
    ratio_line(
        "made-up jobs: audit / the run that made the log",
        rows.iter().map(|row| row.ratio(Audit, Proved)),
    );
    ratio_line(
        "made-up jobs: nodes expanded / nodes",
        rows.iter().map(|row| Some(row.expanded()? / row.job.kind.len() as f64)),
    );
}

/// The routers whose times are shown there.
const RULED: [Router; 3] = [Router::Proved, Router::Heap, Router::Carried];

/// The congested jobs under rule 1 and rule 2, with a limit that lets them settle.
fn rules(largest: usize, lent: &mut Lent) -> Vec<[Row; 2]> {
    let timed: Vec<Router> = routers::all().into_iter().filter(|router| RULED.contains(router)).collect();
    let sizes = SIZES.into_iter().filter(|&n| n <= largest);
    let both = |nodes| {
        [1, 2].map(|rule| {
            eprintln!("congested {nodes}, rule {rule}");
            let job = Job { rule, limit: 100, ..jobs::make(Shape::Congested, nodes) };
            make_row(Shape::Congested, job, |_, _| timed.clone(), lent)
        })
    };
    sizes.map(both).collect()
}

fn print_rules(pairs: &[[Row; 2]]) {
    head(&[
        "nodes",
        "sinks",
        "rule",
        "iterations",
        "turns",
        "outcome",
        "proved, ms",
        "heap, ms",
        "carried, ms",
        "wire cost",
    ]);
    for row in pairs.iter().flatten() {
        let job = &row.job;
        let mut cells =
            [job.kind.len(), job.sink.len(), job.rule as usize].map(|count| count.to_string()).to_vec();
        cells.extend([0, 1].map(|place| row.result.numbers[place].to_string()));
        cells.push(row.outcome());
        cells.extend(RULED.map(|router| cell(row.seconds(router).map(|s| s * 1e3), 3)));
        cells.push(row.cost.to_string());
        line(&cells);
    }
    println!();
    ratio_head();
    let time = |row: &Row| row.seconds(Router::Proved).or(row.seconds(Router::Heap));
    let ratios = |of: &dyn Fn(&Row) -> Option<f64>| {
        pairs.iter().map(|[one, two]| Some(of(two)? / of(one)?)).collect::<Vec<_>>()
    };
    ratio_line("made-up jobs: turns, rule 2 / rule 1", ratios(&|row| Some(row.turns())).into_iter());
    ratio_line("made-up jobs: time, rule 2 / rule 1", ratios(&time).into_iter());
    ratio_line("made-up jobs: wire cost, rule 2 / rule 1", ratios(&|row| Some(row.cost as f64)).into_iter());
}

fn main() {
    let largest = std::env::args().nth(1).and_then(|a| a.parse().ok()).unwrap_or(4096);
    let mut lent = Lent { work: vec![0; 8 * 4096], log: vec![0; LOG] };
    if std::env::args().nth(2).is_some_and(|word| word == "command") {
        return command::print(largest, &mut lent);
    }
    if !HAS_PROVED {
        println!("Built without the proved router.\n");
    }
    let mut rows: Vec<Row> = Vec::new();
    for shape in SHAPES {
        for nodes in SIZES.into_iter().filter(|&n| n <= largest) {
            eprintln!("{shape:?} {nodes}");
            let before = rows.last().filter(|row| row.shape == shape);
            let choose = |job: &Job, turns: f64| chosen(before, job, turns);
            let row = make_row(shape, jobs::make(shape, nodes), choose, &mut lent);
            rows.push(row);
        }
    }
    let pairs = rules(largest, &mut lent);
    print_searches(&rows);
    println!();
    print_rules(&pairs);
    println!();
    print_floor(&rows);
    #[cfg(feature = "proved")]
    {
        println!();
        wrapper::print(largest);
        println!();
        command::print(largest, &mut lent);
    }
}
