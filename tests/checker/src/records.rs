//! The log's words as records.

use crate::fault::Fault;

/// Words of a record before its path.
pub const HEAD: usize = 6;

/// One logged turn. Nothing in it is known to be sound.
pub struct Record<'a> {
    pub iteration: u32,
    pub net: u32,
    pub sink: u32,
    pub cost: u64,
    pub path: &'a [u32],
}

/// The records in the words used, which hold nothing else.
pub fn read(log: &[u32], words: u64) -> Result<Vec<Record<'_>>, Fault> {
    let mut rest = used(log, words)?;
    let mut records = Vec::new();
    while !rest.is_empty() {
        let Some((record, after)) = split(rest) else {
            let word = words - rest.len() as u64;
            return Err(Fault::CutRecord { turn: records.len() as u64, word });
        };
        records.push(record);
        rest = after;
    }
    Ok(records)
}

fn used(log: &[u32], words: u64) -> Result<&[u32], Fault> {
    usize::try_from(words)
        .ok()
        .and_then(|count| log.get(..count))
        .ok_or(Fault::WordsBeyondLog { words, log: log.len() as u64 })
}

/// The first record and the words after it, if it is whole.
fn split(words: &[u32]) -> Option<(Record<'_>, &[u32])> {
    let (&[iteration, net, sink, low, high, length], rest) = words.split_first_chunk::<HEAD>()?;
    let (path, after) = rest.split_at_checked(usize::try_from(length).ok()?)?;
    let cost = u64::from(high) << 32 | u64::from(low);
    Some((Record { iteration, net, sink, cost, path }, after))
}
