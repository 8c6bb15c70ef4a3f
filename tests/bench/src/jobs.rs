//! The jobs to be timed.

use job::{Job, Rng};

#[derive(Clone, Copy, PartialEq, Debug)]
pub enum Shape {
    /// A grid of cells with pins and wires, nets mostly near, wires wide enough.
    Fabric,
    /// The same with narrow wires.
    Congested,
    /// Two or three edges a node, anywhere.
    Sparse,
    /// Eight edges a node, anywhere, eight sinks a net: every table at its bound.
    Dense,
}

pub const SHAPES: [Shape; 4] = [Shape::Fabric, Shape::Congested, Shape::Sparse, Shape::Dense];
pub const SIZES: [usize; 5] = [64, 256, 1024, 2048, 4096];

pub fn make(shape: Shape, nodes: usize) -> Job {
    let mut draw = Rng::new(nodes as u64 * 10 + shape as u64);
    match shape {
        Shape::Fabric => fabric(&mut draw, nodes, 6, 20),
        Shape::Congested => fabric(&mut draw, nodes, 2, 10),
        Shape::Sparse => random(&mut draw, nodes, (1, 2), (1, 3), 10),
        Shape::Dense => random(&mut draw, nodes, (7, 7), (8, 8), 5),
    }
}

// Cells of 16 nodes: two sources, output pins, input pins and sinks each, then eight wires.

const CELL: usize = 16;
const SOURCE: usize = 0;
const OUTPUT: usize = 2;
const INPUT: usize = 4;
const SINK: usize = 6;
const WIRE: usize = 8;

struct Grid {
    width: usize,
    height: usize,
}

impl Grid {
    /// A square, or two squares side by side.
    fn of(cells: usize) -> Grid {
        let mut height = 1;
        while 4 * height * height <= cells {
            height *= 2;
        }
        Grid { width: cells / height, height }
    }

    fn node(&self, x: usize, y: usize, part: usize) -> u16 {
        ((y * self.width + x) * CELL + part) as u16
    }

    /// The cell so far away in a direction (0 east, 1 north, 2 west, 3 south), or the last before the edge.
    fn ahead(&self, x: usize, y: usize, direction: usize, length: usize) -> (usize, usize) {
        match direction {
            0 => ((x + length).min(self.width - 1), y),
            1 => (x, (y + length).min(self.height - 1)),
            2 => (x.saturating_sub(length), y),
            _ => (x, y.saturating_sub(length)),
        }
    }
}

/// Wires go four ways, a short and a long one each way.
fn wire_length(wire: usize) -> usize {
    if wire < 4 {
        1
    } else {
        3
    }
}

fn cell_kind(part: usize) -> u8 {
    match part {
        0 | 1 => 0,
        2 | 3 => 2,
        4 | 5 => 3,
        6 | 7 => 1,
        _ => 3 + wire_length(part - WIRE) as u8,
    }
}

fn cell_capacity(part: usize, wire: u8) -> u8 {
    match part {
        0..=3 => 2,
        4..=7 => 16,
        _ => wire,
    }
}

/// Where the edges of a cell's part lead.
fn cell_row(grid: &Grid, x: usize, y: usize, part: usize) -> Vec<u16> {
    match part {
        0 | 1 => vec![grid.node(x, y, OUTPUT), grid.node(x, y, OUTPUT + 1)],
        2 | 3 => (0..8).map(|w| grid.node(x, y, WIRE + w)).collect(),
        4 | 5 => vec![grid.node(x, y, SINK), grid.node(x, y, SINK + 1)],
        6 | 7 => Vec::new(),
        _ => wire_row(grid, x, y, part - WIRE),
    }
}

/// A wire leads to the input pins and the wires where it ends, but not straight back.
fn wire_row(grid: &Grid, x: usize, y: usize, wire: usize) -> Vec<u16> {
    let (ex, ey) = grid.ahead(x, y, wire % 4, wire_length(wire));
    let own = grid.node(x, y, WIRE + wire);
    let onward = (0..8).filter(|w| w % 4 != (wire + 2) % 4).map(|w| WIRE + w);
    let parts = [INPUT, INPUT + 1].into_iter().chain(onward);
    parts.map(|part| grid.node(ex, ey, part)).filter(|&v| v != own).collect()
}

fn fabric(draw: &mut Rng, nodes: usize, wire: u8, limit: u32) -> Job {
    let grid = Grid::of(nodes / CELL);
    let (mut rows, mut nets) = (Vec::new(), Vec::new());
    for y in 0..grid.height {
        for x in 0..grid.width {
            rows.extend((0..CELL).map(|part| cell_row(&grid, x, y, part)));
            for s in 0..2 {
                nets.push((grid.node(x, y, SOURCE + s), cell_sinks(draw, &grid, x, y)));
            }
        }
    }
    let kind = (0..nodes).map(|v| cell_kind(v % CELL)).collect();
    let capacity = (0..nodes).map(|v| cell_capacity(v % CELL, wire)).collect();
    Job::new(kind, capacity, &rows, &nets, limit)
}

/// One to four sinks, mostly near the cell.
fn cell_sinks(draw: &mut Rng, grid: &Grid, x: usize, y: usize) -> Vec<u16> {
    let mut sinks = Vec::new();
    for _ in 0..draw.within(1, 4) {
        let reach = if draw.below(8) == 0 { 16 } else { 4 };
        let (sx, sy) = (near(draw, x, reach, grid.width), near(draw, y, reach, grid.height));
        let sink = grid.node(sx, sy, SINK + draw.below(2));
        if !sinks.contains(&sink) {
            sinks.push(sink);
        }
    }
    sinks
}

/// A place at most so far from the given one.
fn near(draw: &mut Rng, place: usize, reach: usize, bound: usize) -> usize {
    draw.within(place.saturating_sub(reach), (place + reach).min(bound - 1))
}

/// A ring with further edges anywhere. The ring gives every sink a path. Every eighth node is a source, others are sinks or wires.
fn random(draw: &mut Rng, nodes: usize, more: (usize, usize), sinks: (usize, usize), limit: u32) -> Job {
    let rows: Vec<_> = (0..nodes).map(|u| random_row(draw, nodes, u, more)).collect();
    let nets: Vec<_> = (0..nodes / 8).map(|n| (8 * n as u16, random_sinks(draw, nodes, sinks))).collect();
    let mut kind: Vec<u8> = (0..nodes).map(|_| draw.within(0, 7) as u8).collect();
    for (source, list) in &nets {
        kind[*source as usize] = draw.pick(&[0, 2]);
        list.iter().for_each(|&sink| kind[sink as usize] = draw.pick(&[1, 3]));
    }
    let room = 2 * sinks.1;
    let capacity = (0..nodes).map(|_| draw.within(room, 2 * room) as u8).collect();
    Job::new(kind, capacity, &rows, &nets, limit)
}

fn random_row(draw: &mut Rng, nodes: usize, u: usize, more: (usize, usize)) -> Vec<u16> {
    let mut row = vec![((u + 1) % nodes) as u16];
    let count = 1 + draw.within(more.0, more.1);
    while row.len() < count {
        add_new(&mut row, draw.below(nodes), u);
    }
    row.sort();
    row
}

/// Sinks anywhere between the sources.
fn random_sinks(draw: &mut Rng, nodes: usize, sinks: (usize, usize)) -> Vec<u16> {
    let count = draw.within(sinks.0, sinks.1);
    let mut list = Vec::new();
    while list.len() < count {
        let sink = 8 * draw.below(nodes / 8) + draw.within(1, 7);
        add_new(&mut list, sink, nodes);
    }
    list
}

/// Adds v unless the list has it or it is the one to leave out.
fn add_new(list: &mut Vec<u16>, v: usize, without: usize) {
    if v != without && !list.contains(&(v as u16)) {
        list.push(v as u16);
    }
}

#[cfg(test)]
mod tests {
    use super::*;

    /// Without a log the plain router tests tables and paths, then stops at the first record.
    #[test]
    fn jobs_are_sound() {
        for shape in SHAPES {
            for nodes in SIZES {
                let job = make(shape, nodes);
                let answer = plain::route(
                    &job.kind,
                    &job.capacity,
                    &job.first_edge,
                    &job.edge_target,
                    &job.source,
                    &job.first_sink,
                    &job.sink,
                    &job.delay,
                    &job.criticality,
                    &job.terms(),
                    &mut vec![0; 8 * nodes],
                    &mut [],
                );
                assert_eq!(answer.refusal, [8, 1, 0], "{shape:?} {nodes}");
            }
        }
    }
}
