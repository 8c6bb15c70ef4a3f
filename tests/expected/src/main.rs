//! The expected output of a test program, computed by the plain router from the program's case file (docs/CASES.md). From tests/:
//! `cargo run --release --offline -p expected -- ../crates/search_test/stdin > ../crates/search_test/stdout`

mod alone;
mod cases;
mod jobs;
mod show;

use cases::{Case, Fault};
use std::collections::BTreeSet;
use std::process::ExitCode;

/// Prints the lines of a case.
fn one(case: &mut Case) -> Result<(), Fault> {
    match case.call() {
        "price" => alone::price(case),
        "timed_price" => alone::timed_price(case),
        "tuning" => alone::sound(case),
        "factor" => alone::factor(case),
        "history" => alone::history(case),
        "search" => alone::search(case),
        "timed_search" => alone::timed_search(case),
        "aimed" => alone::aimed(case),
        "timed_aimed" => alone::timed_aimed(case),
        "route" => jobs::route(case),
        "resume" => jobs::resume(case),
        "read" => jobs::read(case),
        "write" => jobs::write(case, "write", plain::write),
        "dot" => jobs::write(case, "dot", plain::dot),
        "run" => jobs::run(case),
        "respond" => jobs::respond(case, "respond", plain::write),
        "picture" => jobs::respond(case, "picture", plain::dot),
        other => Err(format!("there is no call {other:?}")),
    }?;
    case.end()
}

fn all(path: &str) -> Result<(), Fault> {
    let file = std::fs::read_to_string(path).map_err(|e| format!("{path}: {e}"))?;
    let mut names = BTreeSet::new();
    for mut case in cases::cases(&file) {
        if !names.insert(case.name) {
            return Err(format!("{path}: two cases {:?}", case.name));
        }
        one(&mut case).map_err(|fault| format!("{path}: case {:?}: {fault}", case.name))?;
    }
    Ok(())
}

fn main() -> ExitCode {
    let paths: Vec<String> = std::env::args().skip(1).collect();
    let [path] = &paths[..] else {
        eprintln!("usage: expected CASE_FILE");
        return ExitCode::FAILURE;
    };
    match all(path) {
        Ok(()) => ExitCode::SUCCESS,
        Err(fault) => {
            eprintln!("{fault}");
            ExitCode::FAILURE
        }
    }
}
