//! A report as one page of HTML, which needs no other file and no script.

use super::figures::Figures;
use super::places::Places;
use super::sections::{self, Section};
use super::{chart, heat};
use crate::table::Table;
use std::fmt::Write;

pub fn of(figures: &Figures, top: usize, places: Option<&Places>) -> String {
    let (name, verdict) = (escaped(&figures.name), escaped(&figures.verdict));
    let class = if figures.routed { "routed" } else { "refused" };
    let mut page = format!(
        "<!DOCTYPE html>\n<html lang=\"en\">\n<head>\n<meta charset=\"utf-8\">\n\
         <meta name=\"viewport\" content=\"width=device-width\">\n<title>{name}</title>\n<style>\n{STYLE}</style>\n</head>\n<body>\n\
         <h1>{name}</h1>\n<p class=\"{class}\">{verdict}</p>\n"
    );
    let _ = write!(page, "<h2>Overfull nodes</h2>\n{}", chart::of(&figures.iterations));
    let order = match places {
        None => {
            let columns = heat::columns(figures.nodes.len());
            format!("nodes in the order of their numbers, {columns} in a row; each square shows its node when pointed at")
        }
        Some(places) => {
            format!(
                "{} of {} nodes, as they are placed; each square shows its node when pointed at",
                places.list().count(),
                figures.nodes.len()
            )
        }
    };
    let _ = write!(
        page,
        "<h2>Use over capacity</h2>\n<p>{order}</p>\n{}{}",
        legend(),
        heat::of(&figures.nodes, places)
    );
    for Section { title, note, table } in sections::of(figures, top) {
        let _ = write!(page, "<h2>{title}</h2>\n<p>{}</p>\n{}", escaped(&note), table_of(&table));
    }
    page + "</body>\n</html>\n"
}

fn legend() -> String {
    let keys = [(0, "not used"), (1, "a quarter used"), (2, "half"), (4, "full"), (5, "overfull")];
    let key = |(using, says): &(usize, &str)| {
        format!("<span><i style=\"background:{}\"></i>{says}</span>\n", heat::colour(*using, 4))
    };
    format!("<p class=\"legend\">\n{}</p>\n", keys.iter().map(key).collect::<String>())
}

fn table_of(table: &Table) -> String {
    if table.rows().is_empty() {
        return String::from("<p>none</p>\n");
    }
    let cell = |tag: &str, column: usize, text: &str| {
        let class = if table.has_words(column) { " class=\"word\"" } else { "" };
        format!("<{tag}{class}>{}</{tag}>", escaped(text))
    };
    let heads: String =
        table.heads().iter().enumerate().map(|(column, head)| cell("th", column, head)).collect();
    let row = |row: &Vec<String>| {
        let cells: String = row.iter().enumerate().map(|(column, text)| cell("td", column, text)).collect();
        format!("<tr>{cells}</tr>\n")
    };
    let rows: String = table.rows().iter().map(row).collect();
    format!("<table>\n<thead><tr>{heads}</tr></thead>\n<tbody>\n{rows}</tbody>\n</table>\n")
}

/// A text as HTML holds it.
fn escaped(text: &str) -> String {
    text.replace('&', "&amp;").replace('<', "&lt;").replace('>', "&gt;").replace('"', "&quot;")
}

const STYLE: &str = "\
:root { color-scheme: light dark; }
body { font: 15px/1.45 system-ui, sans-serif; max-width: 960px; margin: 2rem auto; padding: 0 1rem; }
h1 { font-size: 1.5rem; margin-bottom: 0.2rem; overflow-wrap: anywhere; }
h2 { font-size: 1.1rem; margin: 2rem 0 0.3rem; }
p { margin: 0.2rem 0 0.6rem; }
.routed { color: #1a7f37; font-weight: 600; }
.refused { color: #d62828; font-weight: 600; }
table { border-collapse: collapse; font-variant-numeric: tabular-nums; }
th, td { text-align: right; padding: 0.15rem 0.8rem 0.15rem 0; border-bottom: 1px solid #8884; }
th.word, td.word { text-align: left; }
svg { display: block; width: 100%; }
.chart { max-width: 720px; font-size: 11px; }
.chart text { fill: currentColor; }
.chart .grid { stroke: #8884; }
.chart polyline { fill: none; stroke: #d62828; stroke-width: 1.5; }
.chart circle { fill: #d62828; }
.legend span { margin-right: 1.2rem; white-space: nowrap; }
.legend i { display: inline-block; width: 0.9em; height: 0.9em; margin-right: 0.4em; vertical-align: -0.1em; }
";
