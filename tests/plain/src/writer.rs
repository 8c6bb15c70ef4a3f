//! The log into routes text, and into a picture.

use crate::join::first_of;
use crate::log::{latest_paths, records, Named, Record};
use crate::tables::{MAX_NETS, MAX_NODES};
use crate::Answer;

/// The writer's own rule for table 5: 1 to 512 entries, each below 4,096.
fn source_is_sound(source: &[u16]) -> bool {
    (1..=MAX_NETS).contains(&source.len()) && source.iter().all(|&s| (s as usize) < MAX_NODES)
}

/// A record's net is one of table 5 and the first of its source.
fn net_is_sound(source: &[u16], net: usize) -> bool {
    net < source.len() && first_of(source, net) == net
}

/// The branches of a net's final tree: the steps of its paths.
fn branches(records: &[Record], net: usize) -> Vec<(u32, u32)> {
    let paths = latest_paths(records, net);
    paths.into_iter().flat_map(|path| path.windows(2)).map(|step| (step[0], step[1])).collect()
}

/// The whole routes text of one or more records: net by net its branches, then the nets that were joined into another.
fn routes_text(source: &[u16], records: &[Record]) -> String {
    let last = records.last().map_or(0, |r| r.iteration);
    let mut text = format!("R,{},{}\n", last, records.len());
    for net in 0..source.len() {
        for (from, to) in branches(records, net) {
            text += &format!("B,{net},{from},{to}\n");
        }
    }
    for net in 0..source.len() {
        let first = first_of(source, net);
        if first != net {
            text += &format!("J,{net},{first}\n");
        }
    }
    text
}

/// The same branches in the DOT language.
fn dot_text(source: &[u16], records: &[Record]) -> String {
    let mut text = String::from("digraph r {\n");
    for net in 0..source.len() {
        for (from, to) in branches(records, net) {
            text += &format!("{from} -> {to} [label=\"{net}\"];\n");
        }
    }
    text + "}\n"
}

/// The writer of the routes text.
pub fn write(source: &[u16], log: &[u32], buffer: &mut [u8]) -> Answer {
    write_by(routes_text, source, log, buffer)
}

/// The writer of the picture.
pub fn dot(source: &[u16], log: &[u32], buffer: &mut [u8]) -> Answer {
    write_by(dot_text, source, log, buffer)
}

/// Tests 5 (table 5 alone), 10, 11, then writes.
fn write_by(text: fn(&[u16], &[Record]) -> String, source: &[u16], log: &[u32], buffer: &mut [u8]) -> Answer {
    if !source_is_sound(source) {
        return Answer::refused(&[5, 5], 1);
    }
    let named = Named { net: |net| net_is_sound(source, net), nodes: MAX_NODES };
    match records(&named, log) {
        Ok(records) => put(&text(source, &records), buffer),
        Err(word) => Answer::refused(&[10, word], 1),
    }
}

/// Puts a text into the buffer, or tells by 11 how long it is.
pub fn put(text: &str, buffer: &mut [u8]) -> Answer {
    let bytes = text.len() as u64;
    match buffer.get_mut(..text.len()) {
        Some(start) => {
            start.copy_from_slice(text.as_bytes());
            Answer::good(&[bytes])
        }
        None => Answer::refused(&[11, bytes], 1),
    }
}
