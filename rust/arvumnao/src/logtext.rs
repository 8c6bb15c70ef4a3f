//! A log as text.

use crate::job::{Nets, LIMIT, NODES};
use crate::line;
use crate::log::Log;
use crate::refusal::{LineFault, Refusal};
use crate::walk::firsts;

/// The names of a record's words before its path.
const NAMES: [&str; 6] = ["iteration", "net", "sink", "cost's low word", "cost's high word", "path's length"];

impl Log {
    /// The log as text: a line for each record, its words separated by commas.
    ///
    /// ```
    /// use arvumnao::{Job, Log};
    ///
    /// let job = Job::read(include_bytes!("../../../examples/job_b.txt"))?;
    /// let log = job.route()?.log;
    /// assert!(log.text().starts_with("1,0,4,4000,0,3,0,2,4\n"));
    /// assert_eq!(Log::read(log.text().as_bytes(), &job.nets)?, log);
    /// # Ok::<(), arvumnao::Refusal>(())
    /// ```
    pub fn text(&self) -> String {
        let mut words = self.words();
        let mut text = String::new();
        for record in self {
            let (own, rest) = words.split_at(record.words() as usize);
            let shown: Vec<String> = own.iter().map(u32::to_string).collect();
            text.push_str(&shown.join(","));
            text.push('\n');
            words = rest;
        }
        text
    }

    /// Reads such a text, of a job with these nets. Each line is ended by LF, and its numbers have no leading zeros. Refused by
    /// [`Refusal::LogLine`], which says what is wrong with which line, and by [`Refusal::Table`] as [`Log::from_words`] is.
    pub fn read(text: &[u8], nets: &Nets) -> Result<Log, Refusal> {
        let mut words = Vec::new();
        let mut begins = Vec::new();
        for (line, (bytes, ended)) in (1..).zip(line::lines(text)) {
            begins.push(words.len() as u64);
            let faulty = |(column, reason)| fault(text, 1, line, column, reason);
            take(bytes, ended, &mut words).map_err(faulty)?;
        }
        let Err(refusal) = Log::from_words(&words, nets) else { return Ok(Log::of_run(words)) };
        let Refusal::Record { word } = refusal else { return Err(refusal) };
        // every line is a whole record
        let place = begins.partition_point(|begin| *begin < word);
        let before = place.checked_sub(1).map_or(0, |before| words[begins[before] as usize]);
        let (column, reason) = unsound(&words[word as usize..], before, nets);
        Err(fault(text, 10, place as u64 + 1, column, reason))
    }
}

/// The refusal of a line.
fn fault(text: &[u8], number: u64, line: u64, column: usize, reason: String) -> Refusal {
    let quoted = line::quoted(text, line);
    let column = quoted.as_ref().map(|_| column);
    Refusal::LogLine(LineFault { number, line, quoted, reason: Some(reason), column })
}

/// Takes a line's words, or says what is wrong with its shape, and where.
fn take(line: &[u8], ended: bool, words: &mut Vec<u32>) -> Result<(), (usize, String)> {
    let begin = words.len();
    let mut column = 0;
    for (place, field) in line.split(|byte| *byte == b',').enumerate() {
        let name = NAMES.get(place).copied().unwrap_or("node");
        words.push(word(field, name).map_err(|(within, reason)| (column + within, reason))?);
        column += field.len() + 1;
    }
    let has = words.len() - begin;
    let length = words.get(begin + 5).map(|length| *length as usize);
    if length.and_then(|length| length.checked_add(6)) != Some(has) {
        let takes = length.map_or(String::new(), |length| format!(" and a path of {length} nodes"));
        return Err((line.len(), format!("has {has} numbers, where a record has 6{takes}")));
    }
    ended.then_some(()).ok_or_else(|| (line.len(), String::from("the last line is not ended by LF")))
}

/// A word's number.
fn word(field: &[u8], name: &str) -> Result<u32, (usize, String)> {
    if let Some(fault) = line::digits(field, name, 10) {
        return Err(fault);
    }
    let number = std::str::from_utf8(field).ok().and_then(|digits| digits.parse().ok());
    number.ok_or_else(|| (0, format!("{name} is beyond 0 to {}", u32::MAX)))
}

/// Why the first record of these words is unsound, in a log whose last record before it was of this iteration.
fn unsound(words: &[u32], before: u32, nets: &Nets) -> (usize, String) {
    let &[iteration, net, sink, _, _, length, ref path @ ..] = words else {
        return (0, String::from("the text ends where the first record should come"));
    };
    let path = &path[..(length as usize).min(path.len())];
    let first = firsts(&nets.source).get(net as usize).copied();
    let reason = if !(1..=LIMIT).contains(&iteration) {
        format!("iteration {iteration} is beyond 1 to {LIMIT}")
    } else if iteration < before {
        format!("iteration {iteration} comes after iteration {before}")
    } else if let Some(node) = path.iter().find(|node| **node as usize >= NODES) {
        format!("node {node} is beyond 0 to {}", NODES - 1)
    } else if path.len() < 2 {
        String::from("its path has fewer than 2 nodes")
    } else if path.last() != Some(&sink) {
        format!("its path doesn't end at sink {sink}")
    } else {
        match first {
            None => format!("net {net} is none of the job's {}", nets.source.len()),
            Some(first) => format!("net {net} is routed as net {first}, the first of its source"),
        }
    };
    (0, reason)
}
