//! The tables of a report, for the terminal and for the page.

use super::figures::Figures;
use crate::kinds;
use crate::table::{counted, listed, Table};

/// The most nets that a row lists.
const LISTED: usize = 8;

/// A table with what it is about.
pub struct Section {
    pub title: &'static str,
    pub note: String,
    pub table: Table,
}

/// The report as text.
pub fn text(figures: &Figures, top: usize) -> String {
    let mut text = format!("{}: {}\n", figures.name, figures.verdict);
    for Section { title, note, table } in of(figures, top) {
        text += &format!("\n{title}: {note}\n");
        text += &if table.rows().is_empty() { String::from("none\n") } else { table.text() };
    }
    text
}

/// All sections, with at most this many rows of nets, nodes and sinks.
pub fn of(figures: &Figures, top: usize) -> Vec<Section> {
    let mut sections = vec![detours(figures, top), crowded(figures, top)];
    if figures.timed {
        sections.push(delays(figures, top));
    }
    sections.push(uses(figures));
    // the longest comes last
    sections.push(iterations(figures));
    sections
}

fn cells<const N: usize>(cells: [&dyn ToString; N]) -> Vec<String> {
    cells.iter().map(|cell| cell.to_string()).collect()
}

fn iterations(figures: &Figures) -> Section {
    let heads = ["iteration", "factor", "nets", "turns", "overfull", "overuse", "tree cost"];
    let mut table = Table::new(&heads, &[]);
    for row in &figures.iterations {
        table.row(cells([
            &row.number,
            &row.factor,
            &row.nets,
            &row.turns,
            &row.overfull,
            &row.overuse,
            &row.tree_cost,
        ]));
    }
    Section {
        title: "Iterations",
        note: String::from("nodes overfull after each, and the trees' base costs"),
        table,
    }
}

fn detours(figures: &Figures, top: usize) -> Section {
    let mut table = Table::new(&["net", "sinks", "alone", "now", "more", "percent"], &[]);
    for net in figures.nets.iter().take(top) {
        let more = net.now as i64 - net.alone as i64;
        let percent = percent(net.now, net.alone);
        table.row(cells([&net.net, &net.sinks, &net.alone, &net.now, &more, &percent]));
    }
    let longer = figures.nets.iter().filter(|net| net.now > net.alone).count();
    let note = format!(
        "{longer} of {} more expensive than alone, that is in iteration 1; trees at base costs",
        counted(figures.nets.len(), "net")
    );
    Section { title: "Detours", note, table }
}

fn crowded(figures: &Figures, top: usize) -> Section {
    let heads = ["node", "kind", "use/capacity", "history", "peak", "overfull", "nets"];
    let mut table = Table::new(&heads, &[1, 6]);
    let crowded = figures.crowded();
    for node in crowded.iter().take(top) {
        let using = format!("{}/{}", node.nets.len(), node.capacity);
        let (kind, nets) = (kinds::name(node.kind), listed(&node.nets, LISTED));
        table.row(cells([&node.node, &kind, &using, &node.history, &node.peak, &node.overfull, &nets]));
    }
    let note = format!(
        "{} overfull at some time; peak is the most nets, overfull in how many iterations",
        counted(crowded.len(), "node")
    );
    Section { title: "Crowded nodes", note, table }
}

fn delays(figures: &Figures, top: usize) -> Section {
    let mut table = Table::new(&["net", "sink", "criticality", "alone", "now", "more"], &[]);
    for sink in figures.sinks.iter().take(top) {
        let more = sink.now as i64 - sink.alone as i64;
        table.row(cells([&sink.net, &sink.sink, &sink.criticality, &sink.alone, &sink.now, &more]));
    }
    let later = figures.sinks.iter().filter(|sink| sink.now > sink.alone).count();
    let note =
        format!("{later} of {} reached later than in iteration 1", counted(figures.sinks.len(), "sink"));
    Section { title: "Delays", note, table }
}

fn uses(figures: &Figures) -> Section {
    let mut table = Table::new(&["kind", "name", "uses", "capacity", "percent"], &[1]);
    for row in &figures.kinds {
        table.row(cells([&row.kind, &row.name(), &row.uses, &row.capacity, &row.percent()]));
    }
    Section { title: "Use of wires", note: String::from("by kind, over the final trees"), table }
}

/// One cost against another, with one place after the point.
fn percent(now: u64, alone: u64) -> String {
    format!("{:.1}", 100.0 * now as f64 / alone.max(1) as f64)
}
