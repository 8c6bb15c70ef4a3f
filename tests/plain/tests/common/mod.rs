//! Tables filled by the reader, and calls on them.
#![allow(dead_code)]

use job::Job;
use plain::{read, resume, route, write, Answer};

pub const MARK: u32 = 77;

/// Job B of 01.
pub const B: &str = "F,6,6,2,2 N,0,0,1 N,1,0,1 N,2,4,1 N,3,5,1 N,4,1,1 N,5,1,1 \
    E,0,2 E,0,3 E,1,2 E,2,4 E,2,5 E,3,4 S,0,0 T,0,4 S,1,1 T,1,5";

/// Its text with these lines after F.
pub fn b_with(lines: &str) -> String {
    text(&B.replacen("F,6,6,2,2", &format!("F,6,6,2,2 {lines}"), 1))
}

/// Lines parted by spaces into a text with an LF after each.
pub fn text(lines: &str) -> String {
    lines.split_whitespace().map(|l| format!("{l}\n")).collect()
}

pub fn read_into(text: &[u8], t: &mut Job) -> Answer {
    read(
        text,
        &mut t.kind,
        &mut t.capacity,
        &mut t.first_edge,
        &mut t.edge_target,
        &mut t.source,
        &mut t.first_sink,
        &mut t.sink,
        &mut t.delay,
        &mut t.criticality,
    )
}

/// Reads a sound text into tables of exactly their length.
pub fn tables(text: &str) -> Job {
    let mut t = Job::unread([40; 9]);
    let answer = read_into(text.as_bytes(), &mut t);
    assert_eq!(answer.refusal, Vec::<u64>::new());
    t.take_numbers(&answer.numbers);
    t
}

/// The reader's refusal of a text; the tables must stay untouched.
pub fn refusal(text: &str) -> Vec<u64> {
    let mut t = Job::unread([40; 9]);
    let answer = read_into(text.as_bytes(), &mut t);
    assert_eq!(answer.numbers, vec![0; 12]);
    assert_eq!(t, Job::unread([40; 9]));
    answer.refusal
}

pub fn route_with(t: &Job, work: &mut [u64], log: &mut [u32]) -> Answer {
    route_by(t, &t.terms(), work, log)
}

/// The same by other terms than the job's own.
pub fn route_by(t: &Job, terms: &[u32], work: &mut [u64], log: &mut [u32]) -> Answer {
    route(
        &t.kind,
        &t.capacity,
        &t.first_edge,
        &t.edge_target,
        &t.source,
        &t.first_sink,
        &t.sink,
        &t.delay,
        &t.criticality,
        terms,
        work,
        log,
    )
}

/// Goes on from so many words of a log.
pub fn resume_with(t: &Job, used: u64, work: &mut [u64], log: &mut [u32]) -> Answer {
    resume(
        &t.kind,
        &t.capacity,
        &t.first_edge,
        &t.edge_target,
        &t.source,
        &t.first_sink,
        &t.sink,
        &t.delay,
        &t.criticality,
        &t.terms(),
        used,
        work,
        log,
    )
}

/// What a call answers that is lent two work entries more than needed, all of which but those two it zeroes.
pub fn zeroing(t: &Job, call: impl FnOnce(&mut [u64]) -> Answer) -> Answer {
    let entries = 8 * t.kind.len();
    let mut work = vec![MARK as u64; entries + 2];
    let answer = call(&mut work);
    assert!(work[..entries].iter().all(|&w| w == 0));
    assert_eq!(work[entries..], [MARK as u64; 2]);
    answer
}

/// Routes with a marked log of so many words.
pub fn routed(t: &Job, words: usize) -> (Answer, Vec<u32>) {
    let mut log = vec![MARK; words];
    let answer = zeroing(t, |work| route_with(t, work, &mut log));
    (answer, log)
}

/// Iteration, net, cost and path of each record, whose cost is below 2^32.
pub fn turns(log: &[u32]) -> Vec<(u32, u32, u32, Vec<u32>)> {
    let mut list = Vec::new();
    let mut rest = log;
    while let [iteration, net, _, cost, 0, nodes, after @ ..] = rest {
        let (path, next) = after.split_at(*nodes as usize);
        list.push((*iteration, *net, *cost, path.to_vec()));
        rest = next;
    }
    assert!(rest.is_empty());
    list
}

/// What the writer makes of table 5 and a log.
pub fn written(source: &[u16], log: &[u32]) -> String {
    text_of(|buffer| write(source, log, buffer))
}

/// The text that a call writes into a buffer, in one with a byte more than needed; one with a byte less stays untouched.
pub fn text_of(write: impl Fn(&mut [u8]) -> Answer) -> String {
    let needed = write(&mut []).refusal;
    assert_eq!(needed[0], 11);
    let bytes = needed[1] as usize;
    let mut short = vec![7; bytes - 1];
    assert_eq!(write(&mut short).refusal, needed);
    assert!(short.iter().all(|&b| b == 7));
    let mut buffer = vec![7; bytes + 1];
    let answer = write(&mut buffer);
    assert_eq!(answer, Answer { refusal: vec![], numbers: vec![bytes as u64] });
    assert_eq!(buffer[bytes], 7);
    String::from_utf8(buffer[..bytes].to_vec()).unwrap()
}

/// The writer's refusal, which leaves the buffer untouched.
pub fn unwritten(source: &[u16], log: &[u32]) -> Vec<u64> {
    let mut buffer = [9; 99];
    let answer = write(source, log, &mut buffer);
    assert_eq!((answer.numbers, buffer), (vec![0], [9; 99]));
    answer.refusal
}
