//! The clauses that can be broken, each in words.

use std::fmt;

/// Which clause is broken. `turn` counts the log's records from 0.
#[derive(Clone, Debug, PartialEq, Eq)]
pub enum Fault {
    // The words used and the turn count.
    WordsBeyondLog { words: u64, log: u64 },
    CutRecord { turn: u64, word: u64 },
    TurnCount { reported: u64, logged: u64 },

    // One turn.
    Iteration { turn: u64, iteration: u32 },
    UnknownNet { turn: u64, net: u32 },
    UnknownNode { turn: u64, node: u32 },
    EmptyPath { turn: u64 },
    NoEdge { turn: u64, from: usize, to: usize },
    StartOutsideTree { turn: u64, node: usize },
    EndNotSink { turn: u64, end: usize, sink: u32 },
    NotSinkOfNet { turn: u64, sink: usize },
    SinkJoined { turn: u64, sink: usize },
    OtherTurn { turn: u64, sink: usize, due: usize },
    Cost { turn: u64, logged: u64, path: u128 },
    CheaperPath { turn: u64, logged: u64, least: u64 },

    // The final trees of an accepted job.
    MissedSink { net: usize, sink: usize },
    ReachedTwice { net: usize, node: usize },
    Overfull { node: usize, load: u32, capacity: u8 },

    // The numbers of the answer.
    UnknownRefusal { numbers: Vec<u64> },
    NotZero { iteration: u64, turns: u64, words: u64 },
    EverySinkReachable { net: u64, place: u64 },
    NoSuchSink { net: u64, place: u64 },
    NamedSinkReachable { net: u64, place: u64 },
    NotFirstUnreachable { net: u64, place: u64, first_net: usize, first_place: usize },
    NotRefused { net: usize, place: usize },
    ReportedIteration { reported: u64, logged: u64 },
    RefusalNumber { number: u64, place: usize, given: u64, due: u64 },
    LogNotFull { room: u64 },
    NothingOver,
    LimitNotReached { iteration: u64, limit: u32 },
}

impl std::error::Error for Fault {}

impl fmt::Display for Fault {
    fn fmt(&self, f: &mut fmt::Formatter<'_>) -> fmt::Result {
        if let Some(turn) = self.turn() {
            write!(f, "turn {turn}: ")?;
        }
        self.words(f)
    }
}

impl Fault {
    /// The turn that the fault is about, if it is about one.
    pub fn turn(&self) -> Option<u64> {
        use Fault::*;
        match *self {
            CutRecord { turn, .. }
            | Iteration { turn, .. }
            | UnknownNet { turn, .. }
            | UnknownNode { turn, .. }
            | EmptyPath { turn }
            | NoEdge { turn, .. }
            | StartOutsideTree { turn, .. }
            | EndNotSink { turn, .. }
            | NotSinkOfNet { turn, .. }
            | SinkJoined { turn, .. }
            | OtherTurn { turn, .. }
            | Cost { turn, .. }
            | CheaperPath { turn, .. } => Some(turn),
            _ => None,
        }
    }

    fn words(&self, f: &mut fmt::Formatter<'_>) -> fmt::Result {
        use Fault::*;
        match self {
            WordsBeyondLog { words, log } => write!(f, "{words} words used of a log of {log}"),
            CutRecord { word, .. } => write!(f, "the record at word {word} passes the words used"),
            TurnCount { reported, logged } => {
                write!(f, "{reported} turns reported, {logged} logged")
            }
            Iteration { iteration, .. } => write!(f, "iteration {iteration} can't come here"),
            UnknownNet { net, .. } => write!(f, "there is no net {net}"),
            UnknownNode { node, .. } => write!(f, "there is no node {node}"),
            EmptyPath { .. } => write!(f, "the path has no node"),
            NoEdge { from, to, .. } => write!(f, "the path needs an edge from {from} to {to}"),
            StartOutsideTree { node, .. } => {
                write!(f, "the path starts in {node}, outside the net's tree")
            }
            EndNotSink { end, sink, .. } => {
                write!(f, "the path ends in {end}, the record's sink is {sink}")
            }
            NotSinkOfNet { sink, .. } => write!(f, "{sink} is no sink of the net"),
            SinkJoined { sink, .. } => write!(f, "sink {sink} is joined already"),
            OtherTurn { sink, due, .. } => write!(f, "sink {sink} is joined, it is the turn of {due}"),
            Cost { logged, path, .. } => write!(f, "cost {logged} logged, the path costs {path}"),
            CheaperPath { logged, least, .. } => {
                write!(f, "cost {logged} logged, another path costs {least}")
            }
            MissedSink { net, sink } => write!(f, "accepted, but net {net} misses sink {sink}"),
            ReachedTwice { net, node } => {
                write!(f, "accepted, but net {net} reaches node {node} twice")
            }
            Overfull { node, load, capacity } => {
                write!(f, "accepted, but node {node} has load {load}, capacity {capacity}")
            }
            UnknownRefusal { numbers } => write!(f, "a sound job can't be refused by {numbers:?}"),
            NotZero { iteration, turns, words } => write!(
                f,
                "refused by 7, but iteration {iteration}, turns {turns}, words {words} aren't all 0"
            ),
            EverySinkReachable { net, place } => {
                write!(f, "refused by 7, {net}, {place}, but every sink has a path")
            }
            NoSuchSink { net, place } => {
                write!(f, "refused by 7, {net}, {place}, but there is no such sink")
            }
            NamedSinkReachable { net, place } => {
                write!(f, "refused by 7, {net}, {place}, but this sink has a path")
            }
            NotFirstUnreachable { net, place, first_net, first_place } => write!(
                f,
                "refused by 7, {net}, {place}, but {first_net}, {first_place} is the first without a path"
            ),
            NotRefused { net, place } => {
                write!(f, "not refused by 7, but net {net}, place {place} has no path")
            }
            ReportedIteration { reported, logged } => {
                write!(f, "iteration {reported} reported, the last record has {logged}")
            }
            RefusalNumber { number, place, given, due } => {
                write!(f, "refused by {number}, whose number {place} is {given}, not {due}")
            }
            LogNotFull { room } => {
                write!(f, "refused by 8, but {room} free words hold any record")
            }
            NothingOver => write!(f, "refused by 9, but no node is over capacity"),
            LimitNotReached { iteration, limit } => {
                write!(f, "refused by 9 in iteration {iteration}, but the limit is {limit}")
            }
        }
    }
}
