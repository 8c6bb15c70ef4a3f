//! Routes job texts of any size that a job may have: prints the routes text of each file named, or why it was refused. Ends with status 1
//! after a refusal, or where a file can't be read or standard output not written, and with 2 where no file is named.
//!
//!     cargo run --example route -- ../../examples/job_b.txt

use arvumnao::Job;
use std::error::Error;
use std::io::{self, Write};
use std::path::{Path, PathBuf};
use std::process::ExitCode;

fn main() -> ExitCode {
    let paths: Vec<PathBuf> = std::env::args_os().skip(1).map(PathBuf::from).collect();
    if paths.is_empty() {
        eprintln!("usage: route JOB..: files of a job text each");
        return ExitCode::from(2);
    }
    let mut code = ExitCode::SUCCESS;
    for path in paths {
        match route(&path) {
            Ok(routes) => {
                if let Err(error) = print(&routes) {
                    eprintln!("standard output: {error}");
                    return ExitCode::FAILURE;
                }
            }
            Err(error) => {
                eprintln!("{}: {error}", path.display());
                code = ExitCode::FAILURE;
            }
        }
    }
    code
}

fn route(path: &Path) -> Result<String, Box<dyn Error>> {
    let text = std::fs::read(path)?;
    let job = Job::read(&text)?;
    Ok(job.route()?.log.routes(&job.nets)?)
}

fn print(routes: &str) -> io::Result<()> {
    let mut output = io::stdout().lock();
    output.write_all(routes.as_bytes())?;
    output.flush()
}
