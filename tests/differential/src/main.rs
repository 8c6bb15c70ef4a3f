//! Sets the library beside the plain crate on many seeded jobs and texts. It fails where they differ, and where a run of at least
//! the default length leaves an outcome out.
//!
//! differential [JOBS] [TEXTS] [SEED]

#[cfg(feature = "library")]
mod again;
mod alone;
mod compare;
mod damage;
mod itself;
mod lengths;
mod logs;
mod outcomes;
mod resumes;
mod run;
mod searches;
mod shrink;
mod uses;
mod wander;
#[cfg(feature = "library")]
mod wrapper;

use run::{Failure, Run};
use std::process::ExitCode;
use std::time::Instant;

const JOBS: u64 = 20_000;
const TEXTS: u64 = 20_000;
const SEED: u64 = 1;

/// Runs all jobs and texts, up to the first that fails.
fn run_all(run: &mut Run, jobs: u64, texts: u64, seed: u64) -> Result<(), (String, Failure)> {
    for index in 0..jobs {
        let one = seed.wrapping_add(index);
        run.job(one).map_err(|failure| (format!("differential 1 0 {one}"), failure))?;
    }
    // after the small jobs, on which a fault is found in a smaller form
    if jobs > 0 {
        run.window().map_err(|failure| ("differential 1 0".to_string(), failure))?;
    }
    for index in 0..texts {
        let one = seed.wrapping_add(index);
        run.text(one).map_err(|failure| (format!("differential 0 1 {one}"), failure))?;
    }
    Ok(())
}

/// Prints a failure with the smallest form found.
fn report(again: &str, failure: &Failure) {
    println!("\nDIFFERENCE, again with: {again}\n{}\n", failure.message);
    let smallest = shrink::shrink(&failure.case, &|case| run::examine(case, failure.out).is_err());
    println!("smallest form found:\n{}", shrink::literal(&smallest));
    if let Err(message) = run::examine(&smallest, failure.out) {
        println!("{message}");
    }
}

#[cfg(feature = "library")]
fn prepare() {}

/// Without the library, DIFFERENTIAL_FAULT names a fault of the second side.
#[cfg(not(feature = "library"))]
fn prepare() {
    println!("plain beside itself");
    if let Ok(text) = std::env::var("DIFFERENTIAL_FAULT") {
        let fault = text.parse().expect("DIFFERENTIAL_FAULT is a number");
        compare::inject::FAULT.store(fault, std::sync::atomic::Ordering::Relaxed);
    }
}

fn main() -> ExitCode {
    let number = |place, missing| job::argument(place, missing, "differential [JOBS] [TEXTS] [SEED]");
    let (jobs, texts, seed) = (number(1, JOBS), number(2, TEXTS), number(3, SEED));
    prepare();
    let start = Instant::now();
    println!("{jobs} jobs, {texts} texts, seed {seed}");
    let mut run = Run::new();
    let result = run_all(&mut run, jobs, texts, seed);
    run.outcomes.print();
    println!("{:.1} s", start.elapsed().as_secs_f64());
    if let Err((again, failure)) = result {
        report(&again, &failure);
        return ExitCode::FAILURE;
    }
    let missing = run.outcomes.missing();
    if jobs >= JOBS && texts >= TEXTS && !missing.is_empty() {
        println!("\nOUTCOMES NOT REACHED: {}", missing.join("; "));
        return ExitCode::FAILURE;
    }
    println!("ok");
    ExitCode::SUCCESS
}
