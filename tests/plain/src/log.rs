//! The records of a stored log.

use crate::tables::{MAX_LIMIT, MAX_NODES};

/// What is read off a record.
pub struct Record<'a> {
    pub iteration: u32,
    pub net: usize,
    pub path: &'a [u32],
}

/// What a record may name: nets by a test, and nodes below a bound.
pub struct Named<T> {
    pub net: T,
    pub nodes: usize,
}

/// The record at the front of these words, if it is whole and sound by itself.
fn record<'a>(named: &Named<impl Fn(usize) -> bool>, words: &'a [u32]) -> Option<Record<'a>> {
    if words.len() < 6 {
        return None;
    }
    let (iteration, net, sink, length) = (words[0], words[1] as usize, words[2], words[5] as usize);
    if !(1..=MAX_LIMIT).contains(&iteration) || !(named.net)(net) {
        return None;
    }
    if !(2..=MAX_NODES).contains(&length) || words.len() < 6 + length {
        return None;
    }
    let path = &words[6..6 + length];
    let sound = path.iter().all(|&v| (v as usize) < named.nodes) && path[length - 1] == sink;
    sound.then_some(Record { iteration, net, path })
}

/// All records, or the first word of the first unsound one.
pub fn records<'a>(named: &Named<impl Fn(usize) -> bool>, log: &'a [u32]) -> Result<Vec<Record<'a>>, u64> {
    let mut found: Vec<Record> = Vec::new();
    let mut place = 0;
    while place < log.len() || found.is_empty() {
        let last = found.last().map_or(0, |r| r.iteration);
        match record(named, &log[place..]) {
            Some(next) if next.iteration >= last => {
                place += 6 + next.path.len();
                found.push(next);
            }
            _ => return Err(place as u64),
        }
    }
    Ok(found)
}

/// What a net's final tree is read from: the paths of its records of the latest iteration in which it has any, in log order.
pub fn latest_paths<'a>(records: &[Record<'a>], net: usize) -> Vec<&'a [u32]> {
    let own = || records.iter().filter(|r| r.net == net);
    let latest = own().map(|r| r.iteration).max();
    own().filter(|r| Some(r.iteration) == latest).map(|r| r.path).collect()
}
