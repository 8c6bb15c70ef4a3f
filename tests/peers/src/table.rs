//! The tables, as Markdown, and what they come to.

use crate::measure::{Entry, Row};
use crate::nextpnr::{Router, Setting, SETTINGS};
use job::table::{cell, head, line, ratio_head, ratio_line};

pub fn ms(entry: &Entry) -> f64 {
    entry.time.as_secs_f64() * 1e3
}

/// Its time, if it has settled.
pub fn settled_ms(entry: Option<&Entry>) -> Option<f64> {
    entry.filter(|entry| entry.settled).map(ms)
}

/// A number of one entry over that of another, where both have settled.
fn ratio(one: Option<&Entry>, other: Option<&Entry>, of: fn(&Entry) -> f64) -> Option<f64> {
    let (one, other) = (one.filter(|entry| entry.settled)?, other.filter(|entry| entry.settled)?);
    Some(of(one) / of(other))
}

fn cost(entry: &Entry) -> f64 {
    entry.cost as f64
}

/// The window's name and counts.
fn sizes(row: &Row) -> Vec<String> {
    let job = &row.job;
    let mut cells = vec![row.case.name(), format!("{} %", row.case.removed)];
    cells.extend(
        [job.kind.len(), job.edge_target.len(), job.source.len(), job.sink.len()].map(|n| n.to_string()),
    );
    cells
}

/// The entries that the tables set side by side: rule 1, rule 2, router1, router2.
fn four(row: &Row) -> [Option<&Entry>; 4] {
    let [one, two] = [1, 2].map(|rule| Some(row.ours(rule, false)));
    [one, two, row.peer(Router::One, false), row.peer(Router::Two, false)]
}

/// The iterations of rule 1, rule 2 and router2.
fn iterations(row: &Row) -> String {
    let [one, two, _, second] = four(row);
    let count = |entry: Option<&Entry>| match entry.filter(|entry| entry.settled) {
        None => "-".to_string(),
        Some(entry) => entry.iterations.to_string(),
    };
    [one, two, second].map(count).join(", ")
}

/// A row a job: sizes, iterations, times, and the wire cost of the others over that of rule 1.
pub fn jobs(rows: &[Row]) {
    head(&[
        "window",
        "wires removed",
        "nodes",
        "edges",
        "nets",
        "sinks",
        "iterations: rule 1, rule 2, router2",
        "rule 1, ms",
        "rule 2, ms",
        "router1, ms",
        "router2, ms",
        "rule 1 / router2",
        "rule 2 / router2",
        "cost: rule 1",
        "rule 2 / rule 1",
        "router1 / rule 1",
        "router2 / rule 1",
    ]);
    for row in rows {
        let [one, two, first, second] = four(row);
        let mut cells = sizes(row);
        cells.push(iterations(row));
        cells.extend([one, two, first, second].map(|entry| cell(settled_ms(entry), 1)));
        cells.extend([one, two].map(|entry| cell(ratio(entry, second, ms), 2)));
        cells.push(cell(one.filter(|entry| entry.settled).map(cost), 0));
        cells.extend([two, first, second].map(|entry| cell(ratio(entry, one, cost), 2)));
        line(&cells);
    }
}

/// Time and wire cost over all jobs beside each router of nextpnr, and under rule 1 beside its eager ones too.
pub fn means(rows: &[Row]) {
    ratio_head();
    for (what, of) in [("time", ms as fn(&Entry) -> f64), ("wire cost", cost)] {
        for rule in [1, 2] {
            for Setting { router, eager } in
                SETTINGS.into_iter().filter(|setting| rule == 1 || !setting.eager)
            {
                let name =
                    format!("{what}, rule {rule} / {}{}", router.name(), if eager { ", eager" } else { "" });
                ratio_line(
                    &name,
                    rows.iter().map(|row| ratio(Some(row.ours(rule, false)), row.peer(router, eager), of)),
                );
            }
        }
    }
}

/// One search beside the other, one rule beside the other, and the library beside our routers without proof.
pub fn own(rows: &[Row]) {
    ratio_head();
    for rule in [1, 2] {
        let aimed = |row: &Row| Some(ms(row.ours(rule, true)) / ms(row.ours(rule, false)));
        ratio_line(&format!("windows, rule {rule}: search that aims / plain search"), rows.iter().map(aimed));
    }
    println!();
    ratio_head();
    let turns: fn(&Entry) -> f64 = |entry| entry.turns as f64;
    for (what, of) in [("turns", turns), ("time", ms), ("wire cost", cost)] {
        let name = format!("windows: {what}, rule 2 / rule 1");
        ratio_line(&name, rows.iter().map(|row| ratio(four(row)[1], four(row)[0], of)));
    }
    println!();
    ratio_head();
    for (place, way) in tuned::WAYS.iter().enumerate() {
        let name = format!("windows: proved / {way:?}").to_lowercase();
        ratio_line(&name, rows.iter().map(|row| Some(ms(row.ours(1, false)) / ms(&row.unproved[place]))));
    }
}

/// The slope of a straight line through the logarithms: by which power of the nodes something grows.
fn power(points: &[(f64, f64)]) -> f64 {
    let count = points.len() as f64;
    let logs: Vec<(f64, f64)> = points.iter().map(|point| (point.0.ln(), point.1.ln())).collect();
    let mean = |of: fn(&(f64, f64)) -> f64| logs.iter().map(of).sum::<f64>() / count;
    let (x, y) = (mean(|p| p.0), mean(|p| p.1));
    let (above, below) = logs
        .iter()
        .fold((0.0, 0.0), |(above, below), p| (above + (p.0 - x) * (p.1 - y), below + (p.0 - x).powi(2)));
    above / below
}

pub fn growth(rows: &[Row]) {
    head(&[
        "window",
        "wires removed",
        "nodes",
        "edges",
        "nets",
        "sinks",
        "turns: rule 1",
        "rule 2",
        "rule 1, ms",
        "rule 2, ms",
        "router1, ms",
        "router2, ms",
        "rule 1, µs a turn",
    ]);
    for row in rows {
        let entries = four(row);
        let mut cells = sizes(row);
        let turns = |entry: &Entry| entry.turns as f64;
        cells.extend([0, 1].map(|place| cell(entries[place].filter(|entry| entry.settled).map(turns), 0)));
        cells.extend(entries.map(|entry| cell(settled_ms(entry), 2)));
        cells.push(cell(Some(turn(row)), 1));
        line(&cells);
    }
    println!();
    let points = |of: &dyn Fn(&Row) -> Option<f64>| {
        rows.iter().filter_map(|row| Some((row.job.kind.len() as f64, of(row)?))).collect::<Vec<_>>()
    };
    head(&["grows by this power of the nodes", ""]);
    for (place, name) in ["rule 1, ms", "rule 2, ms", "router1, ms", "router2, ms"].iter().enumerate() {
        println!("| {name} | {:.2} |", power(&points(&|row| settled_ms(four(row)[place]))));
    }
    println!("| rule 1, turns | {:.2} |", power(&points(&|row| Some(row.ours(1, false).turns as f64))));
    println!("| rule 1, µs a turn | {:.2} |", power(&points(&|row| Some(turn(row)))));
}

/// Microseconds a turn under rule 1.
fn turn(row: &Row) -> f64 {
    let entry = row.ours(1, false);
    ms(entry) * 1e3 / entry.turns as f64
}

#[cfg(test)]
mod tests {
    use super::*;

    #[test]
    fn squares_grow_by_power_two() {
        assert!((power(&[(1.0, 3.0), (2.0, 12.0), (10.0, 300.0)]) - 2.0).abs() < 1e-9);
    }
}
