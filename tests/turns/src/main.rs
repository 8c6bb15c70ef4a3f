//! Sets `aimed_path` beside the plain crate on many seeded turns alone, whose two pairs of tables belong together, differ, or break their
//! rules. No call for C makes such a turn: the built program `search_test` makes it, which reads case files (docs/CASES.md).
//!
//! turns [BATCHES] [SEED]

mod blocks;
mod outcomes;
mod turn;

use job::Rng;
use outcomes::Outcomes;
use std::io::Write;
use std::path::PathBuf;
use std::process::{Command, ExitCode, Stdio};
use turn::Turn;

const BATCHES: u64 = 40;
const SEED: u64 = 1;
/// So many cases of at most nine nodes fit what the program reads.
const TURNS: usize = 160;

/// The program in the folder ARVUMNAO_PROGRAMS, else where `tools/build` puts it.
fn program() -> PathBuf {
    let built = concat!(env!("CARGO_MANIFEST_DIR"), "/../../target/bin");
    PathBuf::from(std::env::var_os("ARVUMNAO_PROGRAMS").unwrap_or(built.into())).join("search_test")
}

/// What the program prints for a case file.
fn printed(cases: &str) -> Result<String, String> {
    let path = program();
    let start = Command::new(&path).stdin(Stdio::piped()).stdout(Stdio::piped()).spawn();
    let mut child = start.map_err(|error| format!("{}: {error}", path.display()))?;
    let mut pipe = child.stdin.take().expect("standard input is a pipe");
    pipe.write_all(cases.as_bytes()).map_err(|error| error.to_string())?;
    drop(pipe);
    let output = child.wait_with_output().map_err(|error| error.to_string())?;
    if !output.status.success() {
        return Err(output.status.to_string());
    }
    String::from_utf8(output.stdout).map_err(|error| error.to_string())
}

/// One batch; the difference, if there is one, with the case.
fn batch(seed: u64, outcomes: &mut Outcomes) -> Result<(), String> {
    let mut rng = Rng::new(seed);
    let turns: Vec<Turn> = (0..TURNS).map(|_| Turn::new(&mut rng)).collect();
    let cases: Vec<String> = turns.iter().enumerate().map(|(place, turn)| turn.case(place)).collect();
    let output = printed(&cases.join("\n"))?;
    let mut lines = output.lines();
    for (place, (turn, case)) in turns.iter().zip(&cases).enumerate() {
        let (answer, line) = turn.expected(place);
        let got = lines.next().unwrap_or("");
        if got != line {
            return Err(format!("{case}\nexpected {line}\n     got {got}"));
        }
        outcomes.add(turn, &answer);
    }
    lines.next().map_or(Ok(()), |line| Err(format!("a line too many: {line}")))
}

fn main() -> ExitCode {
    let number = |place, missing| job::argument(place, missing, "turns [BATCHES] [SEED]");
    let (batches, seed) = (number(1, BATCHES), number(2, SEED));
    let mut outcomes = Outcomes::default();
    for one in seed..seed + batches {
        if let Err(message) = batch(one, &mut outcomes) {
            println!("\nDIFFERENCE, again with: turns 1 {one}\n{message}");
            return ExitCode::FAILURE;
        }
    }
    outcomes.print();
    let missing = outcomes.missing();
    if batches >= BATCHES && !missing.is_empty() {
        println!("OUTCOMES NOT REACHED: {}", missing.join("; "));
        return ExitCode::FAILURE;
    }
    println!("ok");
    ExitCode::SUCCESS
}
