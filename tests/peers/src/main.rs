//! Routes windows of a real chip, an iCE40 1K, with the proved library and with nextpnr's routers, in one run: the same graph, the same costs,
//! processor time of the routing alone. Every answer is checked. Prints tables in Markdown and draws docs/growth.svg.
//!
//! cargo run --release -p peers              all of it
//! cargo run --release -p peers -- 3         the first three windows of each table alone, and no chart
//! cargo run --release -p peers -- window    the text of the smallest window, as tests/job/src/window.txt has it
//!
//! It needs Debian's packages nextpnr-generic and fpga-icestorm-chipdb.

mod cases;
mod chart;
mod chip;
mod legal;
mod measure;
mod nets;
mod nextpnr;
mod ours;
mod table;
mod window;

use cases::{Case, CASES, GROWING};
use chart::Series;
use chip::Chip;
use measure::{measure, Row};
use nextpnr::Router;
use ours::Lent;
use std::path::Path;
use std::process::{Command, ExitCode, Stdio};

const DATABASE: &str = "/usr/share/fpga-icestorm/chipdb/chipdb-1k.txt";
const CHART: &str = concat!(env!("CARGO_MANIFEST_DIR"), "/../../docs/growth.svg");

/// Why it can't be made here.
fn missing(what: &str) -> String {
    format!("{what} is missing: apt-get install nextpnr-generic fpga-icestorm-chipdb")
}

fn read_chip() -> Result<Chip, String> {
    let text = std::fs::read_to_string(DATABASE).map_err(|_| missing(DATABASE))?;
    Chip::read(&text).ok_or(format!("{DATABASE} is not in the form of a chip database"))
}

/// What nextpnr calls itself.
fn nextpnr_version() -> Result<String, String> {
    let mut command = Command::new(nextpnr::PROGRAM);
    let output =
        command.arg("--version").stdin(Stdio::null()).output().map_err(|_| missing(nextpnr::PROGRAM))?;
    let text = [output.stdout, output.stderr].concat();
    Ok(String::from_utf8_lossy(&text).trim().to_string())
}

/// The text of the smallest window, which the differential test keeps.
fn smallest(chip: &Chip) -> Vec<u8> {
    let case = GROWING[0];
    job::texts::text(&case.job(&case.window(chip)))
}

fn measure_all(chip: &Chip, cases: &[Case], folder: &Path) -> Result<Vec<Row>, String> {
    let mut lent = Lent::new();
    let mut rows = Vec::new();
    for (place, case) in cases.iter().enumerate() {
        eprintln!("window {} of {}: {}", place + 1, cases.len(), case.name());
        rows.push(
            measure(chip, *case, &mut lent, folder).map_err(|error| format!("{}: {error}", case.name()))?,
        );
    }
    Ok(rows)
}

/// A value of each row beside its nodes.
fn series(
    rows: &[Row],
    name: &'static str,
    colour: &'static str,
    of: impl Fn(&Row) -> Option<f64>,
) -> Series {
    let points = rows.iter().filter_map(|row| Some((row.job.kind.len() as f64, of(row)?))).collect();
    Series { name, colour, points }
}

fn draw(rows: &[Row]) -> String {
    let ours = |rule| move |row: &Row| table::settled_ms(Some(row.ours(rule, false)));
    let peer = |router| move |row: &Row| table::settled_ms(row.peer(router, false));
    let turns = |rule| {
        move |row: &Row| {
            Some(row.ours(rule, false)).filter(|entry| entry.settled).map(|entry| entry.turns as f64)
        }
    };
    let times = vec![
        series(rows, "rule 1", "#1f5fa8", ours(1)),
        series(rows, "rule 2", "#3a9d6e", ours(2)),
        series(rows, "router1", "#b0413e", peer(Router::One)),
        series(rows, "router2", "#c98a1b", peer(Router::Two)),
    ];
    let counts =
        vec![series(rows, "rule 1", "#1f5fa8", turns(1)), series(rows, "rule 2", "#3a9d6e", turns(2))];
    chart::svg(&[("milliseconds", times), ("turns", counts)])
}

/// The tables of so many windows each, at most; the chart if these are all.
fn compare(chip: &Chip, most: usize) -> Result<(), String> {
    let version = nextpnr_version()?;
    let folder = std::env::temp_dir().join(format!("peers-{}", std::process::id()));
    let rows = measure_all(chip, &CASES[..most.min(CASES.len())], &folder)?;
    let growing = measure_all(chip, &GROWING[..most.min(GROWING.len())], &folder)?;
    let _ = std::fs::remove_dir_all(&folder);
    println!("{version}\n");
    table::jobs(&rows);
    println!();
    table::means(&rows);
    println!();
    table::growth(&growing);
    println!();
    table::own(&rows);
    if growing.len() < GROWING.len() {
        return Ok(());
    }
    std::fs::write(CHART, draw(&growing)).map_err(|error| format!("{CHART}: {error}"))
}

fn run() -> Result<(), String> {
    let chip = read_chip()?;
    let smallest = smallest(&chip);
    let argument = std::env::args().nth(1);
    if argument.as_deref() == Some("window") {
        print!("{}", String::from_utf8_lossy(&smallest));
        return Ok(());
    }
    if smallest != job::window::TEXT.as_bytes() {
        return Err("tests/job/src/window.txt is not the window that this chip database has".to_string());
    }
    match argument.map(|text| text.parse()) {
        None => compare(&chip, usize::MAX),
        Some(Ok(most @ 1..)) => compare(&chip, most),
        Some(_) => Err("peers [WINDOWS | window]".to_string()),
    }
}

fn main() -> ExitCode {
    match run() {
        Ok(()) => ExitCode::SUCCESS,
        Err(message) => {
            eprintln!("{message}");
            ExitCode::FAILURE
        }
    }
}
