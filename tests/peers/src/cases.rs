//! The windows that are routed, and their nets.

use crate::chip::{Chip, Tile};
use crate::nets;
use crate::window::{Area, Window};
use job::Job;

/// What the router takes.
const NODES: usize = 4_096;
const EDGES: usize = 32_768;

/// Iterations at most.
const LIMIT: u32 = 100;

/// A window of the chip: its lowest tile, columns and rows; the wires removed and the outputs used, in a hundred; the seed of both draws.
#[derive(Clone, Copy)]
pub struct Case {
    pub low: Tile,
    pub size: Tile,
    pub removed: usize,
    pub used: usize,
    pub seed: u64,
}

impl Case {
    pub fn name(&self) -> String {
        let (x, y) = self.low;
        format!("{}×{} at {x},{y}", self.size.0, self.size.1)
    }

    pub fn window(&self, chip: &Chip) -> Window {
        let high = (self.low.0 + self.size.0 - 1, self.low.1 + self.size.1 - 1);
        Window::cut(chip, Area { low: self.low, high }, self.removed, self.seed)
    }

    /// The window with its nets. Every node has room for one net, as a wire of the chip has.
    pub fn job(&self, window: &Window) -> Job {
        assert!(window.kind.len() <= NODES && window.edges() <= EDGES, "{} is too large", self.name());
        let nets = nets::draw(window, self.used, self.seed);
        Job::new(window.kind.clone(), vec![1; window.kind.len()], &window.rows, &nets, LIMIT)
    }
}

const fn case(low: Tile, size: Tile, removed: usize, used: usize, seed: u64) -> Case {
    Case { low, size, removed, used, seed }
}

/// The windows of the table, between the chip's two columns of memory: whole ones, then crowded ones.
pub const CASES: [Case; 15] = [
    case((4, 1), (5, 4), 0, 50, 1),
    case((5, 6), (5, 4), 0, 50, 2),
    case((4, 11), (5, 4), 0, 50, 3),
    case((4, 1), (5, 4), 0, 70, 4),
    case((5, 6), (5, 4), 0, 70, 5),
    case((4, 11), (5, 4), 0, 70, 6),
    case((4, 2), (4, 5), 0, 90, 7),
    case((6, 8), (4, 5), 0, 90, 8),
    case((5, 11), (5, 4), 0, 90, 9),
    case((4, 1), (5, 5), 20, 50, 10),
    case((5, 6), (5, 5), 20, 60, 11),
    case((4, 11), (5, 5), 20, 70, 12),
    case((4, 1), (6, 5), 30, 50, 13),
    case((4, 6), (6, 5), 30, 55, 14),
    case((4, 11), (6, 5), 30, 60, 15),
];

/// Windows that grow, about a third of their wires removed, so that the largest has about as many nodes as a job may have and no more edges.
pub const GROWING: [Case; 10] = [
    growing((2, 2)),
    growing((3, 2)),
    growing((3, 3)),
    growing((4, 3)),
    growing((4, 4)),
    growing((5, 4)),
    growing((5, 5)),
    growing((6, 5)),
    growing((6, 6)),
    growing((6, 7)),
];

const fn growing(size: Tile) -> Case {
    case((4, 5), size, 36, 40, 1)
}
