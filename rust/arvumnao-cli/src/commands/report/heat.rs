//! A heat map of use over capacity, as SVG: the nodes in the order of their numbers, or where they are placed.

use super::figures::Node;
use super::places::Places;
use crate::kinds;
use std::collections::BTreeMap;
use std::fmt::Write;

/// The width of a map, and of a node's square where nodes are in order.
const WIDTH: f64 = 900.0;
const SQUARE_MOST: f64 = 36.0;

/// A node's square: node, left, top, side.
type Square = (usize, f64, f64, f64);

pub fn of(nodes: &[Node], places: Option<&Places>) -> String {
    let squares = match places {
        None => in_order(nodes.len()),
        Some(places) => placed(places),
    };
    let right = squares.iter().map(|(_, left, _, side)| left + side).fold(1.0, f64::max);
    let below = squares.iter().map(|(_, _, top, side)| top + side).fold(1.0, f64::max);
    let mut svg = format!(
        "<svg class=\"heat\" viewBox=\"0 0 {right:.1} {below:.1}\" style=\"max-width:{right:.0}px\" role=\"img\" \
         aria-label=\"use over capacity of each node\">\n"
    );
    for (node, left, top, side) in squares {
        let node = &nodes[node];
        // a gap between squares
        let side = side * 0.92;
        let _ = writeln!(
            svg,
            "<rect x=\"{left:.2}\" y=\"{top:.2}\" width=\"{side:.2}\" height=\"{side:.2}\" fill=\"{}\"><title>{}</title></rect>",
            colour(node.nets.len(), node.capacity),
            title(node)
        );
    }
    svg + "</svg>\n"
}

fn title(node: &Node) -> String {
    let (kind, using) = (kinds::name(node.kind), node.nets.len());
    format!("node {}, {kind}: {using}/{}, history {}", node.node, node.capacity, node.history)
}

/// From pale where nothing is used to dark where all is; red where it is more.
pub fn colour(using: usize, capacity: u32) -> String {
    let share = using as f64 / f64::from(capacity);
    match using {
        0 => String::from("#e4e7eb"),
        _ if share > 1.0 => String::from("#d62828"),
        _ => format!("hsl(212 65% {:.0}%)", 82.0 - 52.0 * share),
    }
}

/// How many nodes stand in a row where they are in order: about twice as many as there are rows.
pub fn columns(nodes: usize) -> usize {
    ((2.0 * nodes as f64).sqrt().ceil() as usize).max(1)
}

/// Rows from left to right.
fn in_order(nodes: usize) -> Vec<Square> {
    let columns = columns(nodes);
    let side = (WIDTH / columns as f64).min(SQUARE_MOST);
    let at = |node: usize| (node, side * (node % columns) as f64, side * (node / columns) as f64, side);
    (0..nodes).map(at).collect()
}

/// By x and y, y downwards. Nodes of one place share its square.
fn placed(places: &Places) -> Vec<Square> {
    let mut shared: BTreeMap<(u32, u32), Vec<usize>> = BTreeMap::new();
    for (node, x, y) in places.list() {
        shared.entry((x, y)).or_default().push(node as usize);
    }
    let span = |place: fn(&(u32, u32)) -> u32| {
        let least = shared.keys().map(place).min().unwrap_or(0);
        (least, shared.keys().map(place).max().unwrap_or(0) - least + 1)
    };
    let ((left, wide), (top, high)) = (span(|place| place.0), span(|place| place.1));
    let unit = (WIDTH / f64::from(wide.max(high))).min(2.0 * SQUARE_MOST);
    let mut squares = Vec::new();
    for ((x, y), nodes) in &shared {
        let columns = (nodes.len() as f64).sqrt().ceil() as usize;
        let side = unit / columns as f64;
        for (place, node) in nodes.iter().enumerate() {
            let right = f64::from(x - left) * unit + side * (place % columns) as f64;
            let down = f64::from(y - top) * unit + side * (place / columns) as f64;
            squares.push((*node, right, down, side));
        }
    }
    squares
}

#[cfg(test)]
mod tests {
    use super::*;

    #[test]
    fn more_use_is_darker_and_too_much_is_red() {
        let colours = [colour(0, 4), colour(1, 4), colour(4, 4), colour(5, 4)];
        assert_eq!(colours, ["#e4e7eb", "hsl(212 65% 69%)", "hsl(212 65% 30%)", "#d62828"]);
    }

    #[test]
    fn squares_in_order_dont_meet() {
        let squares = in_order(7);
        assert_eq!(squares.len(), 7);
        assert!(squares.windows(2).all(|two| two[0].1 + two[0].3 <= two[1].1 + 1e-9 || two[0].2 < two[1].2));
    }
}
