//! Why the reader refused a line. The lines before it are correct, so they say what could come there.

use crate::job::{EDGES, NETS, NODES, SINKS};
use crate::kind;
use std::ops::RangeInclusive;

/// The bytes of a line that are quoted.
const QUOTED: usize = 80;

/// The byte order mark with which some editors begin a file.
const BYTE_ORDER_MARK: &[u8] = b"\xef\xbb\xbf";

/// The text's lines, each without its LF and whether it has one.
pub(crate) fn lines(text: &[u8]) -> impl Iterator<Item = (&[u8], bool)> {
    let whole = text.split_inclusive(|byte| *byte == b'\n');
    whole.map(|line| line.strip_suffix(b"\n").map_or((line, false), |bytes| (bytes, true)))
}

/// The line of that number, from 1: its beginning if it is long, with unprintable bytes escaped. None if the text ends before it.
pub(crate) fn quoted(text: &[u8], line: u64) -> Option<String> {
    let (bytes, _) = lines(text).nth(usize::try_from(line.checked_sub(1)?).ok()?)?;
    let dots = if bytes.len() > QUOTED { ".." } else { "" };
    Some(format!("{}{dots}", bytes[..bytes.len().min(QUOTED)].escape_ascii()))
}

/// What is wrong with a line, and where in it, in bytes from 0.
type Found = (usize, String);

/// What is wrong with the line by that number, or nothing if it isn't the first faulty one.
pub(crate) fn reason(text: &[u8], number: u64, line: u64) -> Option<Found> {
    let mut lines = lines(text);
    let mut before = Before::default();
    for _ in 0..line.checked_sub(1)? {
        let (bytes, _) = lines.next()?;
        before.take(*bytes.first()?, &numbers(bytes)?)?;
    }
    if number == 1 {
        return before.shape(lines.next());
    }
    let (bytes, _) = lines.next()?;
    let (place, reason) = match number {
        2 => before.value(bytes)?,
        3 => before.order(bytes)?,
        _ => return None,
    };
    Some((column(bytes, place), reason))
}

/// Where in a line its number of that place begins.
fn column(line: &[u8], place: usize) -> usize {
    line.split(|byte| *byte == b',').take(place + 1).map(|field| field.len() + 1).sum()
}

/// The numbers of a line of sound shape.
fn numbers(line: &[u8]) -> Option<Vec<u32>> {
    if line == b"W" {
        return Some(Vec::new());
    }
    let fields = line.get(1..)?.strip_prefix(b",")?;
    fields.split(|byte| *byte == b',').map(|field| std::str::from_utf8(field).ok()?.parse().ok()).collect()
}

/// The names of a line's numbers.
fn names(letter: u8, timed: bool) -> &'static [&'static str] {
    match letter {
        b'N' if timed => &["node", "kind", "capacity", "delay"],
        b'T' if timed => &["net", "node", "criticality"],
        b'F' => &["nodes", "edges", "nets", "limit"],
        b'P' => &["first", "up", "down", "step"],
        b'V' => &["rule", "k"],
        b'N' => &["node", "kind", "capacity"],
        b'E' => &["from", "to"],
        b'S' | b'T' => &["net", "node"],
        _ => &[],
    }
}

/// The number of a line that only a timed job has.
fn timed_number(letter: u8) -> Option<&'static str> {
    match letter {
        b'N' => Some("delay"),
        b'T' => Some("criticality"),
        _ => None,
    }
}

/// What the lines before the faulty one give.
#[derive(Default)]
struct Before {
    /// Nodes, edges, nets and limit; none before the F line.
    counts: Option<[u32; 4]>,
    tuned: bool,
    ruled: bool,
    timed: bool,
    kinds: Vec<u32>,
    edges: usize,
    last_edge: (u32, u32),
    /// How many nets have begun, the source of the last and its sinks, and the sinks of all.
    nets: u32,
    source: u32,
    sinks: Vec<u32>,
    all_sinks: usize,
}

impl Before {
    /// Takes a sound line.
    fn take(&mut self, letter: u8, values: &[u32]) -> Option<()> {
        match (letter, values) {
            (b'F', &[nodes, edges, nets, limit]) => self.counts = Some([nodes, edges, nets, limit]),
            (b'P', _) => self.tuned = true,
            (b'V', _) => self.ruled = true,
            (b'W', _) => self.timed = true,
            (b'N', &[_, kind, ..]) => self.kinds.push(kind),
            (b'E', &[from, to]) => {
                self.edges += 1;
                self.last_edge = (from, to);
            }
            (b'S', &[_, node]) => {
                self.nets += 1;
                self.source = node;
                self.sinks.clear();
            }
            (b'T', &[_, node, ..]) => {
                self.sinks.push(node);
                self.all_sinks += 1;
            }
            _ => return None,
        }
        Some(())
    }

    /// The letters that may come next, and the line that they begin in words.
    fn due(&self) -> (&'static [u8], String) {
        let Some([nodes, edges, nets, _]) = self.counts else { return (b"F", String::from("the F line")) };
        let (node, last) = (self.kinds.len(), self.nets.saturating_sub(1));
        if node == 0 && !self.timed {
            self.due_first()
        } else if node < nodes as usize {
            (b"N", format!("the N line of node {node}"))
        } else if self.edges < edges as usize {
            (b"E", format!("E line {} of {edges}", self.edges + 1))
        } else if self.nets == 0 {
            (b"S", String::from("the S line of net 0"))
        } else if self.sinks.is_empty() {
            (b"T", format!("a T line of net {last}"))
        } else if self.nets < nets {
            (b"TS", format!("a T line of net {last} or the S line of net {}", self.nets))
        } else {
            (b"T", format!("a T line of net {last} or the end of the text"))
        }
    }

    /// The same before any N line and the W line.
    fn due_first(&self) -> (&'static [u8], String) {
        if self.ruled {
            (b"WN", String::from("a W line or the N line of node 0"))
        } else if self.tuned {
            (b"VWN", String::from("a V line, a W line or the N line of node 0"))
        } else {
            (b"PVWN", String::from("a P line, a V line, a W line or the N line of node 0"))
        }
    }

    /// What is wrong with the shape of a line.
    fn shape(&self, line: Option<(&[u8], bool)>) -> Option<Found> {
        let (letters, due) = self.due();
        let Some((bytes, ended)) = line else {
            return Some((0, self.without_sink(format!("the text ends where {due} should come"))));
        };
        let Some(letter) = bytes.first() else {
            return Some((0, self.without_sink(format!("an empty line where {due} should come"))));
        };
        if bytes.starts_with(BYTE_ORDER_MARK) {
            return Some((
                0,
                format!(
                    "begins with a byte order mark, which a job text doesn't have, where {due} should come"
                ),
            ));
        }
        if !letters.contains(letter) {
            let fault = format!("begins with {} where {due} should come", shown(*letter));
            return Some((0, self.without_sink(fault)));
        }
        let fault = if *letter == b'W' { alone(bytes) } else { self.fields(*letter, bytes) };
        fault.or_else(|| (!ended).then(|| (bytes.len(), String::from("the last line is not ended by LF"))))
    }

    /// The fault, with the net that it leaves without a sink.
    fn without_sink(&self, fault: String) -> String {
        if self.nets > 0 && self.sinks.is_empty() {
            format!("net {} has no sink: {fault}", self.nets - 1)
        } else {
            fault
        }
    }

    /// What is wrong with what follows a letter that takes numbers.
    fn fields(&self, letter: u8, line: &[u8]) -> Option<Found> {
        let names = names(letter, self.timed);
        let Some(fields) = line[1..].strip_prefix(b",") else {
            return Some((1, format!("the letter {} is not followed by a comma", char::from(letter))));
        };
        let fields: Vec<&[u8]> = fields.split(|byte| *byte == b',').collect();
        let mut listed = fields.iter().zip(names).enumerate();
        let fault = listed.find_map(|(place, (field, name))| Some((place, digits(field, name, 6)?)));
        if let Some((place, (within, fault))) = fault {
            return Some((column(line, place) + within, fault));
        }
        let fewest = if letter == b'V' { 1 } else { names.len() };
        if !(fewest..=names.len()).contains(&fields.len()) {
            let place = column(line, names.len()).min(line.len());
            return Some((place, self.count(letter, fields.len())));
        }
        if let (b'V', [b"1", _]) = (letter, &fields[..]) {
            return Some((column(line, 1), String::from("has a second number, which rule 1 does not take")));
        }
        None
    }

    /// Says that a line has `has` numbers, and how many its letter takes.
    fn count(&self, letter: u8, has: usize) -> String {
        let names = names(letter, self.timed);
        let (shown, most) = (char::from(letter), names.len());
        if let Some(name) = timed_number(letter) {
            if !self.timed && has == most + 1 {
                return format!(
                    "has a {name}, which only a timed job has: that has a W line before its N lines"
                );
            }
            if self.timed && has + 1 == most {
                return format!(
                    "has no {name}, which a timed job has in each {shown} line: there is a W line above"
                );
            }
        }
        let takes = if letter == b'V' { String::from("1 to 2") } else { most.to_string() };
        format!("has {has} numbers, where {shown} takes {takes}: {}", names.join(", "))
    }

    /// Which value of a line is beyond its bounds, and its place.
    fn value(&self, line: &[u8]) -> Option<Found> {
        let values = numbers(line)?;
        let letter = *line.first()?;
        let bounds = self.bounds(letter, &values)?;
        let mut listed = names(letter, self.timed).iter().zip(values).zip(bounds).enumerate();
        let (place, ((name, value), bounds)) =
            listed.find(|(_, ((_, value), bounds))| !bounds.contains(value))?;
        Some((place, format!("{name} {value} is beyond {} to {}", bounds.start(), bounds.end())))
    }

    /// The bounds of a line's values.
    fn bounds(&self, letter: u8, values: &[u32]) -> Option<Vec<RangeInclusive<u32>>> {
        let [nodes, _, nets, _] = self.counts.unwrap_or_default();
        let (node, net) = (0..=nodes.saturating_sub(1), 0..=nets.saturating_sub(1));
        Some(match letter {
            b'F' => vec![1..=NODES as u32, 0..=EDGES as u32, 1..=NETS as u32, 1..=100],
            // if down itself is wrong, up has the lowest bound possible
            b'P' => vec![
                0..=1_000,
                *values.get(2).filter(|down| (1..=4).contains(*down)).unwrap_or(&1)..=8,
                1..=4,
                1..=2,
            ],
            b'V' => vec![1..=2, 1..=99],
            b'N' => vec![node, 0..=kind::MOST.into(), 1..=255, 0..=1_000],
            b'E' => vec![node.clone(), node],
            b'S' | b'T' => vec![net, node, 0..=9],
            _ => return None,
        })
    }

    /// What is wrong with a line's order or number, and the place of the number.
    fn order(&self, line: &[u8]) -> Option<Found> {
        let values = numbers(line)?;
        let due = self.nets.saturating_sub(1);
        match (*line.first()?, &values[..]) {
            (b'N', [node, ..]) => {
                Some((0, format!("node {node} out of order: node {} is due", self.kinds.len())))
            }
            (b'E', &[from, to]) => Some((0, self.edge(from, to)?)),
            (b'S', &[net, _]) if net != self.nets => {
                Some((0, format!("net {net} out of order: net {} is due", self.nets)))
            }
            (b'S', &[_, node]) => Some((1, self.pin(node, "source", "0 or 2")?)),
            (b'T', &[net, ..]) if net + 1 != self.nets => {
                Some((0, format!("net {net} is not that of the S line above, net {due}")))
            }
            (b'T', &[_, node, ..]) => Some((1, self.sink(node)?)),
            _ => None,
        }
    }

    /// What is wrong with a sink.
    fn sink(&self, node: u32) -> Option<String> {
        if node == self.source {
            Some(format!("node {node} is the net's own source"))
        } else if self.sinks.contains(&node) {
            Some(format!("node {node} is a sink of this net already"))
        } else if self.all_sinks >= SINKS {
            Some(format!("a job has at most {SINKS} sinks"))
        } else {
            self.pin(node, "sink", "1 or 3")
        }
    }

    fn edge(&self, from: u32, to: u32) -> Option<String> {
        let (last_from, last_to) = self.last_edge;
        if from == to {
            Some(format!("an edge from node {from} to itself"))
        } else if (from, to) == self.last_edge {
            Some(String::from("the edge of the line before again"))
        } else if self.edges > 0 && (from, to) < self.last_edge {
            Some(format!("edges must rise: the line before has {last_from} to {last_to}"))
        } else {
            None
        }
    }

    /// A pin of a kind that is not allowed there.
    fn pin(&self, node: u32, role: &str, kinds: &str) -> Option<String> {
        let kind = *self.kinds.get(node as usize)?;
        let name = kind::name(u8::try_from(kind).ok()?);
        Some(format!("node {node} is {name}, of kind {kind}; a {role} must be of kind {kinds}"))
    }
}

/// What is wrong with a W line.
fn alone(line: &[u8]) -> Option<Found> {
    let byte = line.get(1)?;
    Some((1, format!("{} after the letter W, which stands alone in its line", shown(*byte))))
}

/// What is wrong with a number's digits, at most `most` of them, and where in it.
pub(crate) fn digits(field: &[u8], name: &str, most: usize) -> Option<Found> {
    if let Some(place) = field.iter().position(|byte| *byte == b'\r') {
        return Some((place, format!("a carriage return after {name}: lines end in LF alone")));
    }
    if let Some(place) = field.iter().position(|byte| !byte.is_ascii_digit()) {
        return Some((place, format!("{} in {name}, where only digits may stand", shown(field[place]))));
    }
    match field {
        [] => Some((0, format!("{name} has no digits"))),
        [b'0', _, ..] => Some((0, format!("{name} has a leading zero"))),
        _ if field.len() > most => Some((0, format!("{name} has more than {most} digits"))),
        _ => None,
    }
}

/// A byte as a sentence shows it.
fn shown(byte: u8) -> String {
    match byte {
        b'\r' => String::from("a carriage return"),
        b' ' => String::from("a blank"),
        _ if byte.is_ascii_graphic() => format!("'{}'", char::from(byte)),
        _ => format!("byte {byte}"),
    }
}
