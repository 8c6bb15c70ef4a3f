//! The job text into tables.

use crate::price::{criticality_is_good, delay_is_good, Tuning, MAX_KIND};
use crate::tables::{may_be_sink, may_be_source, rule_is_sound};
use crate::tables::{MAX_EDGES, MAX_LIMIT, MAX_NETS, MAX_NODES, MAX_SINKS, PLAIN_RULE, PLAIN_UNTIL};
use crate::tables::{MAX_TIMED_LIMIT, MAX_TIMED_NODES};
use crate::Answer;

/// A refusal: its number and the line.
type Fault = [u64; 2];

/// The text with how far it has come; `line` is the number of lines taken.
struct Lines<'a> {
    text: &'a [u8],
    place: usize,
    line: u64,
}

/// The values of a sound text. An untimed one has no delay and no criticality.
struct Job {
    kind: Vec<u8>,
    capacity: Vec<u8>,
    first_edge: Vec<u32>,
    edge_target: Vec<u16>,
    source: Vec<u16>,
    first_sink: Vec<u32>,
    sink: Vec<u16>,
    delay: Vec<u16>,
    criticality: Vec<u8>,
    limit: u32,
    tuning: Tuning,
    rule: u32,
    until: u32,
    timed: bool,
}

/// The own numbers of the reader.
const NUMBERS: usize = 12;

/// The counts that the F line gives.
struct Counts {
    nodes: u32,
    edges: u32,
    nets: u32,
    limit: u32,
}

impl<'a> Lines<'a> {
    fn rest(&self) -> &'a [u8] {
        &self.text[self.place..]
    }

    /// Takes the next line, of so many fields; fault 1 if it is missing, has no LF or another shape.
    fn take(&mut self, letter: u8, fields: usize) -> Result<Vec<u32>, Fault> {
        self.take_some(letter, &[fields])
    }

    /// The same of a line that may have any of these counts of fields.
    fn take_some(&mut self, letter: u8, fields: &[usize]) -> Result<Vec<u32>, Fault> {
        self.line += 1;
        let rest = self.rest();
        let Some(end) = rest.iter().position(|&b| b == b'\n') else {
            return Err([1, self.line]);
        };
        self.place += end + 1;
        line_fields(&rest[..end], letter, fields).ok_or([1, self.line])
    }

    /// Fault 2 in the line taken last unless all is within bounds.
    fn bounds(&self, good: bool) -> Result<(), Fault> {
        if good {
            Ok(())
        } else {
            Err([2, self.line])
        }
    }

    /// Fault 3 in the line taken last unless its order and numbers are right.
    fn order(&self, good: bool) -> Result<(), Fault> {
        if good {
            Ok(())
        } else {
            Err([3, self.line])
        }
    }
}

/// The numbers of a line (without its LF), if it has the letter and one of these counts of fields.
fn line_fields(line: &[u8], letter: u8, fields: &[usize]) -> Option<Vec<u32>> {
    let mut parts = line.split(|&b| b == b',');
    if parts.next() != Some(&[letter][..]) {
        return None;
    }
    let numbers: Option<Vec<u32>> = parts.map(number).collect();
    numbers.filter(|n| fields.contains(&n.len()))
}

/// A field: 1 to 6 digits, no leading zero but 0 itself.
fn number(field: &[u8]) -> Option<u32> {
    if field.is_empty() || field.len() > 6 || (field.len() > 1 && field[0] == b'0') {
        return None;
    }
    if !field.iter().all(|b| b.is_ascii_digit()) {
        return None;
    }
    Some(field.iter().fold(0, |sum, b| sum * 10 + (b - b'0') as u32))
}

fn read_counts(lines: &mut Lines) -> Result<Counts, Fault> {
    let f = lines.take(b'F', 4)?;
    lines.bounds((1..=MAX_NODES as u32).contains(&f[0]))?;
    lines.bounds(f[1] <= MAX_EDGES as u32)?;
    lines.bounds((1..=MAX_NETS as u32).contains(&f[2]))?;
    lines.bounds((1..=MAX_LIMIT).contains(&f[3]))?;
    Ok(Counts { nodes: f[0], edges: f[1], nets: f[2], limit: f[3] })
}

/// The P line, which may be missing.
fn read_tuning(lines: &mut Lines) -> Result<Tuning, Fault> {
    if lines.rest().first() != Some(&b'P') {
        return Ok(Tuning::PLAIN);
    }
    let f = lines.take(b'P', 4)?;
    let tuning = Tuning { first: f[0], up: f[1], down: f[2], step: f[3] };
    lines.bounds(tuning.is_sound())?;
    Ok(tuning)
}

/// Rule and k of the V line, which may be missing. `V,1` takes no second number.
fn read_rule(lines: &mut Lines) -> Result<(u32, u32), Fault> {
    if lines.rest().first() != Some(&b'V') {
        return Ok((PLAIN_RULE, PLAIN_UNTIL));
    }
    let f = lines.take_some(b'V', &[1, 2])?;
    if f[0] == 1 && f.len() == 2 {
        return Err([1, lines.line]);
    }
    let (rule, until) = (f[0], f.get(1).copied().unwrap_or(PLAIN_UNTIL));
    lines.bounds(rule_is_sound(rule, until))?;
    Ok((rule, until))
}

/// The W line, which may be missing: whether the job is timed.
fn read_timed(lines: &mut Lines) -> Result<bool, Fault> {
    let timed = lines.rest().first() == Some(&b'W');
    if timed {
        lines.take(b'W', 0)?;
    }
    Ok(timed)
}

/// In a timed job the line has one number more, the last.
fn take_timed(lines: &mut Lines, letter: u8, fields: usize, timed: bool) -> Result<Vec<u32>, Fault> {
    lines.take(letter, fields + usize::from(timed))
}

fn read_nodes(lines: &mut Lines, counts: &Counts, job: &mut Job) -> Result<(), Fault> {
    for node in 0..counts.nodes {
        let f = take_timed(lines, b'N', 3, job.timed)?;
        lines.bounds(f[0] < counts.nodes)?;
        lines.bounds(f[1] <= MAX_KIND)?;
        lines.bounds((1..=255).contains(&f[2]))?;
        lines.bounds(f[3..].iter().all(|&delay| delay_is_good(delay)))?;
        lines.order(f[0] == node)?;
        job.kind.push(f[1] as u8);
        job.capacity.push(f[2] as u8);
        job.delay.extend(f[3..].iter().map(|&delay| delay as u16));
    }
    Ok(())
}

fn read_edges(lines: &mut Lines, counts: &Counts, job: &mut Job) -> Result<(), Fault> {
    let mut edges: Vec<(u32, u32)> = Vec::new();
    for _ in 0..counts.edges {
        let f = lines.take(b'E', 2)?;
        lines.bounds(f[0] < counts.nodes && f[1] < counts.nodes)?;
        lines.order(f[0] != f[1])?;
        lines.order(edges.last().is_none_or(|&last| last < (f[0], f[1])))?;
        edges.push((f[0], f[1]));
    }
    // A node's first edge place is the number of edges from lower nodes.
    for node in 0..=counts.nodes {
        job.first_edge.push(edges.iter().filter(|e| e.0 < node).count() as u32);
    }
    job.edge_target = edges.iter().map(|e| e.1 as u16).collect();
    Ok(())
}

fn read_nets(lines: &mut Lines, counts: &Counts, job: &mut Job) -> Result<(), Fault> {
    for net in 0..counts.nets {
        job.first_sink.push(job.sink.len() as u32);
        let source = read_source(lines, counts, job, net)?;
        job.source.push(source);
        let before = job.sink.len();
        loop {
            read_sink(lines, counts, job, net, source, before)?;
            if lines.rest().first() != Some(&b'T') {
                break;
            }
        }
    }
    job.first_sink.push(job.sink.len() as u32);
    Ok(())
}

fn read_source(lines: &mut Lines, counts: &Counts, job: &Job, net: u32) -> Result<u16, Fault> {
    let f = lines.take(b'S', 2)?;
    lines.bounds(f[0] < counts.nets && f[1] < counts.nodes)?;
    lines.order(f[0] == net)?;
    lines.order(may_be_source(job.kind[f[1] as usize]))?;
    Ok(f[1] as u16)
}

/// One T line; of the sinks in `job` so many are of earlier nets, the others of this one.
fn read_sink(
    lines: &mut Lines,
    counts: &Counts,
    job: &mut Job,
    net: u32,
    source: u16,
    before: usize,
) -> Result<(), Fault> {
    let f = take_timed(lines, b'T', 2, job.timed)?;
    lines.bounds(f[0] < counts.nets && f[1] < counts.nodes)?;
    lines.bounds(f[2..].iter().all(|&criticality| criticality_is_good(criticality)))?;
    let sink = f[1] as u16;
    lines.order(f[0] == net)?;
    lines.order(sink != source && !job.sink[before..].contains(&sink))?;
    lines.order(may_be_sink(job.kind[f[1] as usize]))?;
    lines.order(job.sink.len() < MAX_SINKS)?;
    job.sink.push(sink);
    job.criticality.extend(f[2..].iter().map(|&criticality| criticality as u8));
    Ok(())
}

/// The whole text, up to its end.
fn read_job(text: &[u8]) -> Result<Job, Fault> {
    let mut lines = Lines { text, place: 0, line: 0 };
    let counts = read_counts(&mut lines)?;
    let tuning = read_tuning(&mut lines)?;
    let (rule, until) = read_rule(&mut lines)?;
    let timed = read_timed(&mut lines)?;
    let mut job = Job {
        kind: Vec::new(),
        capacity: Vec::new(),
        first_edge: Vec::new(),
        edge_target: Vec::new(),
        source: Vec::new(),
        first_sink: Vec::new(),
        sink: Vec::new(),
        delay: Vec::new(),
        criticality: Vec::new(),
        limit: counts.limit,
        tuning,
        rule,
        until,
        timed,
    };
    read_nodes(&mut lines, &counts, &mut job)?;
    read_edges(&mut lines, &counts, &mut job)?;
    read_nets(&mut lines, &counts, &mut job)?;
    if !lines.rest().is_empty() {
        return Err([1, lines.line + 1]);
    }
    Ok(job)
}

/// What the reader returns of a sound text.
fn numbers(job: &Job) -> [u64; NUMBERS] {
    let Tuning { first, up, down, step } = job.tuning;
    [
        job.kind.len() as u64,
        job.edge_target.len() as u64,
        job.source.len() as u64,
        job.sink.len() as u64,
        job.limit as u64,
        first as u64,
        up as u64,
        down as u64,
        step as u64,
        job.rule as u64,
        job.until as u64,
        job.timed as u64,
    ]
}

/// A timed text has more nodes or a higher limit than it may.
fn too_large(job: &Job) -> bool {
    job.timed && (job.kind.len() > MAX_TIMED_NODES || job.limit > MAX_TIMED_LIMIT)
}

/// The reader: 1, 2 or 3 for the first faulty line, then 4 for the lowest table too short, then 15. An untimed text has no entries for
/// tables 9 and 10.
pub fn read(
    text: &[u8],
    kind: &mut [u8],
    capacity: &mut [u8],
    first_edge: &mut [u32],
    edge_target: &mut [u16],
    source: &mut [u16],
    first_sink: &mut [u32],
    sink: &mut [u16],
    delay: &mut [u16],
    criticality: &mut [u8],
) -> Answer {
    let job = match read_job(text) {
        Ok(job) => job,
        Err(fault) => return Answer::refused(&fault, NUMBERS),
    };
    let too_short = [
        (1, kind.len() < job.kind.len()),
        (2, capacity.len() < job.capacity.len()),
        (3, first_edge.len() < job.first_edge.len()),
        (4, edge_target.len() < job.edge_target.len()),
        (5, source.len() < job.source.len()),
        (6, first_sink.len() < job.first_sink.len()),
        (7, sink.len() < job.sink.len()),
        (9, delay.len() < job.delay.len()),
        (10, criticality.len() < job.criticality.len()),
    ];
    if let Some((table, _)) = too_short.iter().find(|(_, short)| *short) {
        return Answer::refused(&[4, *table], NUMBERS);
    }
    if too_large(&job) {
        return Answer::refused(&[15, job.kind.len() as u64, job.limit as u64], NUMBERS);
    }
    kind[..job.kind.len()].copy_from_slice(&job.kind);
    capacity[..job.capacity.len()].copy_from_slice(&job.capacity);
    first_edge[..job.first_edge.len()].copy_from_slice(&job.first_edge);
    edge_target[..job.edge_target.len()].copy_from_slice(&job.edge_target);
    source[..job.source.len()].copy_from_slice(&job.source);
    first_sink[..job.first_sink.len()].copy_from_slice(&job.first_sink);
    sink[..job.sink.len()].copy_from_slice(&job.sink);
    delay[..job.delay.len()].copy_from_slice(&job.delay);
    criticality[..job.criticality.len()].copy_from_slice(&job.criticality);
    Answer::good(&numbers(&job))
}
