//! The tables and their rules. A table's length is part of its rule.

use crate::price::{criticality_is_good, delay_is_good};

pub const MAX_NODES: usize = 4_096;
pub const MAX_EDGES: usize = 32_768;
pub const MAX_NETS: usize = 512;
pub const MAX_SINKS: usize = 4_096;
pub const MAX_LIMIT: u32 = 100;

/// What a timed job has at most.
pub const MAX_TIMED_NODES: usize = 1_024;
pub const MAX_TIMED_LIMIT: u32 = 40;

/// Rule 1 reroutes every net, rule 2 after iteration k the crowded ones alone. That of a text without a V line is 1.
pub const PLAIN_RULE: u32 = 1;

/// The k of a V line that doesn't tell it, and of a text without one.
pub const PLAIN_UNTIL: u32 = 1;

/// Rule and k. The same bounds hold in a text and in a direct call.
pub fn rule_is_sound(rule: u32, until: u32) -> bool {
    (rule == 1 || rule == 2) && (1..=99).contains(&until)
}

/// A source must be a source or an output pin.
pub fn may_be_source(kind: u8) -> bool {
    kind == 0 || kind == 2
}

/// A sink must be a sink or an input pin.
pub fn may_be_sink(kind: u8) -> bool {
    kind == 1 || kind == 3
}

/// Tables 1 to 4.
pub struct Graph<'a> {
    pub kind: &'a [u8],
    pub capacity: &'a [u8],
    pub first_edge: &'a [u32],
    pub edge_target: &'a [u16],
}

/// Tables 5 to 7.
pub struct Nets<'a> {
    pub source: &'a [u16],
    pub first_sink: &'a [u32],
    pub sink: &'a [u16],
}

/// Tables 9 and 10, which a timed job alone has.
pub struct Timing<'a> {
    pub delay: &'a [u16],
    pub criticality: &'a [u8],
}

impl Timing<'_> {
    /// The lower of the two that breaks its rule, beside tables of so many nodes and sinks.
    pub fn broken(&self, nodes: usize, sinks: usize) -> Option<u64> {
        if !delays_are_sound(self.delay, nodes) {
            Some(9)
        } else if !self.criticality_is_sound(sinks) {
            Some(10)
        } else {
            None
        }
    }

    fn criticality_is_sound(&self, sinks: usize) -> bool {
        self.criticality.len() == sinks && self.criticality.iter().all(|&c| criticality_is_good(c as u32))
    }
}

/// Table 9: a delay a node.
pub fn delays_are_sound(delay: &[u16], nodes: usize) -> bool {
    delay.len() == nodes && delay.iter().all(|&d| delay_is_good(d as u32))
}

impl Graph<'_> {
    pub fn nodes(&self) -> usize {
        self.kind.len()
    }

    /// The targets of a node's edges (tables 3 and 4 of right shape).
    pub fn targets(&self, node: usize) -> &[u16] {
        row(self.first_edge, self.edge_target, node)
    }

    pub fn has_edge(&self, from: usize, to: usize) -> bool {
        self.targets(from).iter().any(|&t| t as usize == to)
    }

    /// The lowest of tables 1 to 4 that breaks its rule.
    pub fn broken(&self) -> Option<u64> {
        if !self.kind_is_sound() {
            Some(1)
        } else if !self.capacity_is_sound() {
            Some(2)
        } else if !self.first_edge_is_sound() {
            Some(3)
        } else if !self.edge_target_is_sound() {
            Some(4)
        } else {
            None
        }
    }

    fn kind_is_sound(&self) -> bool {
        (1..=MAX_NODES).contains(&self.kind.len()) && self.kind.iter().all(|&k| k <= 53)
    }

    fn capacity_is_sound(&self) -> bool {
        self.capacity.len() == self.nodes() && self.capacity.iter().all(|&c| c >= 1)
    }

    fn first_edge_is_sound(&self) -> bool {
        places_are_sound(self.first_edge, self.nodes(), self.edge_target.len())
            && self.first_edge.windows(2).all(|w| w[0] <= w[1])
    }

    /// Asked only when table 3 is sound.
    fn edge_target_is_sound(&self) -> bool {
        self.edge_target.len() <= MAX_EDGES && (0..self.nodes()).all(|v| self.row_is_sound(v))
    }

    fn row_is_sound(&self, node: usize) -> bool {
        let targets = self.targets(node);
        targets.windows(2).all(|w| w[0] < w[1])
            && targets.iter().all(|&t| (t as usize) < self.nodes() && t as usize != node)
    }
}

impl Nets<'_> {
    pub fn count(&self) -> usize {
        self.source.len()
    }

    /// The sinks of a net (tables 6 and 7 of right shape).
    pub fn sinks(&self, net: usize) -> &[u16] {
        row(self.first_sink, self.sink, net)
    }

    /// The lowest of tables 5 to 7 that breaks its rule, beside a sound table 1.
    pub fn broken(&self, kind: &[u8]) -> Option<u64> {
        if !self.source_is_sound(kind) {
            Some(5)
        } else if !self.first_sink_is_sound() {
            Some(6)
        } else if !self.sink_is_sound(kind) {
            Some(7)
        } else {
            None
        }
    }

    fn source_is_sound(&self, kind: &[u8]) -> bool {
        (1..=MAX_NETS).contains(&self.source.len())
            && self.source.iter().all(|&s| kind.get(s as usize).is_some_and(|&k| may_be_source(k)))
    }

    fn first_sink_is_sound(&self) -> bool {
        places_are_sound(self.first_sink, self.count(), self.sink.len())
            && self.first_sink.windows(2).all(|w| w[0] < w[1])
    }

    /// Asked only when tables 5 and 6 are sound.
    fn sink_is_sound(&self, kind: &[u8]) -> bool {
        self.sink.len() <= MAX_SINKS
            && self.sink.iter().all(|&s| kind.get(s as usize).is_some_and(|&k| may_be_sink(k)))
            && (0..self.count()).all(|net| self.net_is_sound(net))
    }

    fn net_is_sound(&self, net: usize) -> bool {
        let sinks = self.sinks(net);
        sinks.iter().enumerate().all(|(place, s)| *s != self.source[net] && !sinks[..place].contains(s))
    }
}

/// One row of a table of places and what they point to.
fn row<'a>(first: &[u32], all: &'a [u16], number: usize) -> &'a [u16] {
    &all[first[number] as usize..first[number + 1] as usize]
}

/// A table of places has one entry more than its owners, begins with 0 and ends with the length.
fn places_are_sound(first: &[u32], owners: usize, length: usize) -> bool {
    first.len() == owners + 1 && first[0] == 0 && first[owners] as usize == length
}
