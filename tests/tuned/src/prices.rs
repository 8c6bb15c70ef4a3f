//! Users, histories, factor and the prices that follow from them.

use crate::search::Node;

const LAST_FACTOR: u64 = 65_535;

/// What factor and histories move on by.
pub struct Tuning {
    pub first: u64,
    pub up: u64,
    pub down: u64,
    pub step: u64,
}

pub struct Prices<'a> {
    tuning: Tuning,
    capacity: &'a [u8],
    base: Vec<u64>,
    /// History times base.
    weight: Vec<u64>,
    /// Users less capacity.
    over: Vec<i32>,
    factor: u64,
    worst_history: u64,
    iteration: u32,
    history: Vec<u64>,
}

/// Base cost by kind: wires from 4 on have length 1 and up.
fn base(kind: u8) -> u64 {
    match kind {
        0..=2 => 20,
        3 => 19,
        _ => 20 * (kind as u64 - 3),
    }
}

impl<'a> Prices<'a> {
    pub fn new(kind: &[u8], capacity: &'a [u8], tuning: Tuning) -> Self {
        let base: Vec<u64> = kind.iter().map(|&k| base(k)).collect();
        Prices {
            tuning,
            capacity,
            weight: base.clone(),
            base,
            over: capacity.iter().map(|&c| -(c as i32)).collect(),
            factor: 0,
            worst_history: 1,
            iteration: 1,
            history: vec![1; kind.len()],
        }
    }

    pub fn nodes(&self) -> usize {
        self.capacity.len()
    }

    /// Price to a net that isn't among v's users.
    #[inline]
    fn price(&self, v: usize) -> u64 {
        self.weight[v] * (100 + self.factor * (self.over[v] + 1).max(0) as u64)
    }

    /// Sets every price, at an iteration's start.
    pub fn fill(&self, nodes: &mut [Node]) {
        for (v, node) in nodes.iter_mut().enumerate() {
            node.price = self.price(v);
        }
    }

    /// A net drops its tree.
    pub fn leave(&mut self, tree: &mut Vec<u16>, nodes: &mut [Node]) {
        for v in tree.drain(..) {
            self.over[v as usize] -= 1;
            nodes[v as usize].price = self.price(v as usize);
        }
    }

    /// A net has made its tree.
    pub fn enter(&mut self, tree: &[u16], nodes: &mut [Node]) {
        for &v in tree {
            self.over[v as usize] += 1;
            nodes[v as usize].price = self.price(v as usize);
        }
    }

    pub fn overfull(&self, v: u16) -> bool {
        self.over[v as usize] > 0
    }

    pub fn count_over(&self) -> u64 {
        self.over.iter().filter(|&&o| o > 0).count() as u64
    }

    /// Histories and factor move on.
    pub fn step(&mut self) {
        for v in 0..self.over.len() {
            if self.over[v] > 0 {
                self.history[v] += self.tuning.step * self.over[v] as u64;
                self.weight[v] = self.history[v] * self.base[v];
                self.worst_history = self.worst_history.max(self.history[v]);
            }
        }
        let Tuning { first, up, down, .. } = self.tuning;
        self.factor = if self.iteration == 1 { first } else { LAST_FACTOR.min(self.factor * up / down) };
        self.iteration += 1;
    }

    /// No path of this iteration costs more.
    pub fn worst_path(&self, nets: usize) -> u64 {
        self.worst_history * 240 * (100 + self.factor * nets as u64) * self.capacity.len() as u64
    }
}
