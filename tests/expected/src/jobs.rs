//! The router, the reader, the writer, and the whole way from a job text to what the program prints.

use crate::cases::{Case, Fault};
use crate::show::{answer, line, numbers, refusal, slice, text};
use plain::{Lent, Tables, Writer};

/// What every lent slice holds before a call that writes it.
const BEFORE: u8 = 7;

/// A slice of so many entries before the call.
fn lent<T: From<u8> + Clone>(length: u32) -> Vec<T> {
    vec![T::from(BEFORE); length as usize]
}

/// The terms, of which the last may be left out, or all of them and 1 for an aimed search, then two more numbers.
fn asked(said: &[u32]) -> Result<(&[u32], bool, u32, u32), Fault> {
    match *said {
        [ref terms @ .., first, second] if terms.len() == 7 || terms.len() == 8 => {
            Ok((terms, false, first, second))
        }
        [ref terms @ .., aimed, first, second] if terms.len() == 8 => Ok((terms, aimed != 0, first, second)),
        _ => Err(format!("there are {} numbers for 9 to 11", said.len())),
    }
}

/// The two numbers after the terms are the lengths of the work slice and the log.
pub fn route(case: &mut Case) -> Result<(), Fault> {
    let said: Vec<u32> = case.list("route")?;
    let (terms, aimed, entries, words) = asked(&said)?;
    let tables = tables(case)?;
    let mut work: Vec<u64> = lent(entries);
    let mut log: Vec<u32> = lent(words);
    let got = if aimed {
        tables.route_aimed(terms, &mut work, &mut log)
    } else {
        tables.route(terms, &mut work, &mut log)
    };
    line(case, &[refusal(&got), numbers(&got.numbers), slice(&work), slice(&log)]);
    Ok(())
}

/// The two numbers after the terms are the words used and the length of the work slice. The log, whole, stands after the tables.
pub fn resume(case: &mut Case) -> Result<(), Fault> {
    let said: Vec<u32> = case.list("resume")?;
    let (terms, aimed, used, entries) = asked(&said)?;
    let tables = tables(case)?;
    let mut work: Vec<u64> = lent(entries);
    let mut log: Vec<u32> = case.list("log")?;
    let got = if aimed {
        tables.resume_aimed(terms, used.into(), &mut work, &mut log)
    } else {
        tables.resume(terms, used.into(), &mut work, &mut log)
    };
    line(case, &[refusal(&got), numbers(&got.numbers), slice(&work), slice(&log)]);
    Ok(())
}

pub fn read(case: &mut Case) -> Result<(), Fault> {
    let lengths = lengths(case.list("read")?)?;
    let mut tables = Tables::lent(lengths.map(|length| length as usize), BEFORE);
    let job = case.text("job")?;
    let got = tables.read(&job);
    line(case, &[answer(&got), shown(&tables)]);
    Ok(())
}

/// The lengths of tables 1 to 7, 9 and 10; without the last two these are empty.
fn lengths(mut said: Vec<u32>) -> Result<[u32; 9], Fault> {
    if said.len() == 7 {
        said.extend([0, 0]);
    }
    said.try_into().map_err(|said: Vec<u32>| format!("read has {} lengths for 7 or 9", said.len()))
}

pub fn write(case: &mut Case, call: &str, writer: Writer) -> Result<(), Fault> {
    let [bytes] = case.numbers(call)?;
    let source: Vec<u16> = case.list("source")?;
    let log: Vec<u32> = case.list("log")?;
    let mut routes: Vec<u8> = lent(bytes);
    let got = writer(&source, &log, &mut routes);
    line(case, &[answer(&got), text(&routes)]);
    Ok(())
}

/// The tables of `flow_test`: for six nodes, seven edges, two nets and two sinks.
const FLOW_TABLES: [usize; 9] = [6, 6, 7, 7, 2, 3, 2, 6, 2];

/// A job text and what its run is lent.
fn job_and_lent(case: &mut Case, call: &str) -> Result<(Vec<u8>, Lent), Fault> {
    let sizes: [u32; 3] = case.numbers(call)?;
    let lent = Lent::new(FLOW_TABLES, sizes.map(|size| size as usize), BEFORE);
    Ok((case.text("job")?, lent))
}

/// Everything lent but the job text.
fn shown_lent(lent: &Lent) -> String {
    shown(&lent.tables) + &slice(&lent.work) + &slice(&lent.log) + &text(&lent.buffer)
}

pub fn run(case: &mut Case) -> Result<(), Fault> {
    let (job, mut lent) = job_and_lent(case, "run")?;
    let got = lent.run(&job, plain::write);
    line(case, &[answer(&got), shown_lent(&lent)]);
    Ok(())
}

/// The program's answer to an input.
pub fn respond(case: &mut Case, call: &str, writer: Writer) -> Result<(), Fault> {
    let (input, mut lent) = job_and_lent(case, call)?;
    let bytes = lent.respond(&input, writer);
    line(case, &[numbers(&[bytes as u64]), shown_lent(&lent)]);
    Ok(())
}

/// The tables of a case, of which 9 and 10 may be left out.
fn tables(case: &mut Case) -> Result<Tables, Fault> {
    Ok(Tables {
        kind: case.list("kind")?,
        capacity: case.list("capacity")?,
        first_edge: case.list("first_edge")?,
        edge_target: case.list("edge_target")?,
        source: case.list("source")?,
        first_sink: case.list("first_sink")?,
        sink: case.list("sink")?,
        delay: case.list_or_none("delay")?,
        criticality: case.list_or_none("criticality")?,
    })
}

fn shown(tables: &Tables) -> String {
    slice(&tables.kind)
        + &slice(&tables.capacity)
        + &slice(&tables.first_edge)
        + &slice(&tables.edge_target)
        + &slice(&tables.source)
        + &slice(&tables.first_sink)
        + &slice(&tables.sink)
        + &slice(&tables.delay)
        + &slice(&tables.criticality)
}
