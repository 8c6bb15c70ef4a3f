//! The search for a net's nearest open sink, and the path to it.

use crate::graph::Graph;
use std::cmp::Reverse;
use std::collections::BinaryHeap;

pub const FAR: u64 = u64::MAX;

pub type Heap<K> = BinaryHeap<Reverse<K>>;

/// A heap key: distance above, node below.
pub trait Key: Ord + Copy {
    fn new(distance: u64, node: usize) -> Self;
    fn distance(self) -> u64;
    fn node(self) -> usize;
}

/// Distances below this fit into a key of 64 bits.
pub const SHORT_KEY: u64 = 1 << 52;

impl Key for u64 {
    #[inline]
    fn new(distance: u64, node: usize) -> u64 {
        distance << 12 | node as u64
    }
    #[inline]
    fn distance(self) -> u64 {
        self >> 12
    }
    #[inline]
    fn node(self) -> usize {
        (self & 0xfff) as usize
    }
}

impl Key for u128 {
    #[inline]
    fn new(distance: u64, node: usize) -> u128 {
        (distance as u128) << 12 | node as u128
    }
    #[inline]
    fn distance(self) -> u64 {
        (self >> 12) as u64
    }
    #[inline]
    fn node(self) -> usize {
        (self & 0xfff) as usize
    }
}

/// Label: 0 in the tree, FAR where nothing has been found.
#[derive(Clone, Copy)]
pub struct Node {
    pub label: u64,
    pub price: u64,
}

pub struct Search<'a, const PRUNE: bool, const CARRY: bool> {
    graph: Graph<'a>,
    pub nodes: Vec<Node>,
    /// The net's open sinks as listed, and a mark on each.
    pub open: Vec<u16>,
    is_open: Vec<bool>,
    /// Nodes that lead nowhere: leaves, and pins whose leaves aren't sinks of the net.
    dead: Vec<bool>,
    /// Nodes with a label.
    touched: Vec<u16>,
    path: Vec<u16>,
}

impl<'a, const PRUNE: bool, const CARRY: bool> Search<'a, PRUNE, CARRY> {
    pub fn new(nodes: usize, graph: Graph<'a>) -> Self {
        Search {
            dead: if PRUNE { graph.pins().to_vec() } else { vec![false; nodes] },
            graph,
            nodes: vec![Node { label: FAR, price: 0 }; nodes],
            open: Vec::new(),
            is_open: vec![false; nodes],
            touched: Vec::new(),
            path: Vec::new(),
        }
    }

    /// Begins a net: the tree is its source.
    pub fn begin<K: Key>(&mut self, source: u16, sinks: &[u16], tree: &mut Vec<u16>, heap: &mut Heap<K>) {
        self.open.extend_from_slice(sinks);
        for &s in sinks {
            self.is_open[s as usize] = true;
        }
        self.set_pins(sinks, false);
        self.touched.push(source);
        self.plant(source, tree, heap);
    }

    /// Marks the pins before those sinks that are leaves.
    fn set_pins(&mut self, sinks: &[u16], dead: bool) {
        if !PRUNE {
            return;
        }
        for &s in sinks.iter().filter(|&&s| self.graph.is_leaf(s as usize)) {
            for &u in self.graph.before(s as usize) {
                self.dead[u as usize] = dead && self.graph.pins()[u as usize];
            }
        }
    }

    /// Puts a node that has been touched into the tree.
    fn plant<K: Key>(&mut self, v: u16, tree: &mut Vec<u16>, heap: &mut Heap<K>) {
        self.nodes[v as usize].label = 0;
        tree.push(v);
        if !self.dead[v as usize] {
            heap.push(Reverse(K::new(0, v as usize)));
        }
    }

    /// Forgets what the net's search found.
    pub fn end<K: Key>(&mut self, sinks: &[u16], heap: &mut Heap<K>) {
        heap.clear();
        self.set_pins(sinks, true);
        self.forget();
    }

    fn forget(&mut self) {
        for v in self.touched.drain(..) {
            self.nodes[v as usize].label = FAR;
        }
    }

    /// Distance of the nearest open sink, if any has a path.
    pub fn nearest<K: Key>(&mut self, tree: &[u16], heap: &mut Heap<K>) -> Option<u64> {
        if !CARRY {
            self.again(tree, heap);
        }
        // What lies beyond the best sink matters only if the search goes on after it.
        let best = if !PRUNE {
            self.settle(heap)
        } else if CARRY && self.open.len() > 1 {
            self.spread::<K, true>(heap)
        } else {
            self.spread::<K, false>(heap)
        };
        (best != FAR).then_some(best)
    }

    /// Begins a turn anew from the tree.
    fn again<K: Key>(&mut self, tree: &[u16], heap: &mut Heap<K>) {
        self.forget();
        heap.clear();
        for &v in tree {
            self.nodes[v as usize].label = 0;
            self.touched.push(v);
            heap.push(Reverse(K::new(0, v as usize)));
        }
    }

    /// Settles nodes in order of distance up to the first open sink. A node's first label is final, so every node
    /// that the path back can name has its label then.
    fn settle<K: Key>(&mut self, heap: &mut Heap<K>) -> u64 {
        while let Some(Reverse(key)) = heap.pop() {
            let from = key.distance();
            if self.is_open[key.node()] {
                return from;
            }
            for &v in self.graph.after(key.node()) {
                let node = &mut self.nodes[v as usize];
                if node.label == FAR {
                    node.label = from + node.price;
                    self.touched.push(v);
                    heap.push(Reverse(K::new(node.label, v as usize)));
                }
            }
        }
        FAR
    }

    /// Labels nodes in order of distance until no path to an open sink can cost as little as the best.
    /// Then the labels of all nodes on cheapest paths to the nearest sinks are final.
    /// KEEP: the heap keeps the nodes beyond.
    fn spread<K: Key, const KEEP: bool>(&mut self, heap: &mut Heap<K>) -> u64 {
        let mut best = self.least_open(|node| node.label);
        // No path to an open sink ends with a cheaper step.
        let last_step = self.least_open(|node| node.price);
        while let Some(&Reverse(key)) = heap.peek() {
            let from = key.distance();
            if from + last_step > best {
                break;
            }
            heap.pop();
            // A node that has come nearer since is in the heap again.
            if self.nodes[key.node()].label != from {
                continue;
            }
            for &v in self.graph.after(key.node()) {
                let node = &mut self.nodes[v as usize];
                let label = from + node.price;
                if label >= node.label {
                    continue;
                }
                if node.label == FAR {
                    self.touched.push(v);
                }
                node.label = label;
                if self.is_open[v as usize] {
                    best = best.min(label);
                }
                if (KEEP || label + last_step <= best) && !self.dead[v as usize] {
                    heap.push(Reverse(K::new(label, v as usize)));
                }
            }
        }
        best
    }

    /// Least value of the open sinks.
    fn least_open(&self, value: fn(&Node) -> u64) -> u64 {
        self.open.iter().map(|&s| value(&self.nodes[s as usize])).min().unwrap_or(FAR)
    }

    /// Joins the first listed open sink at this distance. Gives the path from sink to tree.
    pub fn join<K: Key>(&mut self, cost: u64, tree: &mut Vec<u16>, heap: &mut Heap<K>) -> &[u16] {
        let at = self.open.iter().position(|&s| self.nodes[s as usize].label == cost);
        let sink = self.open.remove(at.expect("an open sink at this distance"));
        self.is_open[sink as usize] = false;
        self.trace(sink);
        for i in 0..self.path.len() - 1 {
            self.plant(self.path[i], tree, heap);
        }
        &self.path
    }

    /// Finds the path backwards: each time the lowest node that the label can come from.
    fn trace(&mut self, sink: u16) {
        let nodes = &self.nodes;
        let mut v = sink;
        self.path.clear();
        self.path.push(v);
        while nodes[v as usize].label != 0 {
            let wanted = nodes[v as usize].label - nodes[v as usize].price;
            let row = self.graph.before(v as usize);
            let found = row.iter().find(|&&u| nodes[u as usize].label == wanted);
            v = *found.expect("every label comes from a node");
            self.path.push(v);
        }
    }
}
