//! A report as a JSON object.

use super::figures::{Figures, Net, Node, Row, Sink};
use crate::json::Json;
use crate::kinds::Uses;

/// The object in one line, with at most this many entries of each list that is sorted by rank.
pub fn of(figures: &Figures, top: usize) -> String {
    let object = Json::Object(vec![
        ("job", Json::text(&figures.name)),
        ("routed", Json::Bool(figures.routed)),
        ("verdict", Json::text(&figures.verdict)),
        ("iterations", Json::List(figures.iterations.iter().map(iteration).collect())),
        ("nets", Json::List(figures.nets.iter().take(top).map(net).collect())),
        ("crowded", Json::List(figures.crowded().into_iter().take(top).map(node).collect())),
        ("sinks", Json::List(figures.sinks.iter().take(top).map(sink).collect())),
        ("kinds", Json::List(figures.kinds.iter().map(kind).collect())),
    ]);
    format!("{object}\n")
}

fn iteration(row: &Row) -> Json {
    Json::Object(vec![
        ("iteration", row.number.into()),
        ("factor", row.factor.into()),
        ("nets", row.nets.into()),
        ("turns", row.turns.into()),
        ("overfull", row.overfull.into()),
        ("overuse", row.overuse.into()),
        ("tree_cost", row.tree_cost.into()),
    ])
}

fn net(net: &Net) -> Json {
    Json::Object(vec![
        ("net", net.net.into()),
        ("sinks", net.sinks.into()),
        ("alone", net.alone.into()),
        ("now", net.now.into()),
    ])
}

fn node(node: &Node) -> Json {
    Json::Object(vec![
        ("node", node.node.into()),
        ("kind", node.kind.into()),
        ("capacity", node.capacity.into()),
        ("nets", Json::numbers(&node.nets)),
        ("history", node.history.into()),
        ("peak", node.peak.into()),
        ("overfull", node.overfull.into()),
    ])
}

fn sink(sink: &Sink) -> Json {
    Json::Object(vec![
        ("net", sink.net.into()),
        ("sink", sink.sink.into()),
        ("criticality", sink.criticality.into()),
        ("alone", sink.alone.into()),
        ("now", sink.now.into()),
    ])
}

fn kind(row: &Uses) -> Json {
    Json::Object(vec![
        ("kind", row.kind.into()),
        ("name", Json::text(row.name())),
        ("uses", row.uses.into()),
        ("capacity", row.capacity.into()),
    ])
}
