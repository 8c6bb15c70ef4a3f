//! Small blocks, their edges by source and by target, and what may be wrong with these.

use job::Rng;

/// Edges in the form of tables 3 and 4, or of those by target.
#[derive(Clone)]
pub struct Pair {
    pub first: Vec<u32>,
    pub ends: Vec<u16>,
}

/// How the tables by target go with tables 3 and 4.
#[derive(Clone, Copy, PartialEq)]
pub enum Back {
    Belongs,
    Edges,
    Other,
    Damaged,
    Length,
}

/// For each pair of nodes, whether there is an edge.
pub type Edges = Vec<Vec<bool>>;

/// Edges at random: few, or many.
pub fn edges(rng: &mut Rng, nodes: usize) -> Edges {
    let percent = rng.pick(&[15, 30, 50, 80]);
    (0..nodes).map(|u| (0..nodes).map(|v| u != v && rng.percent(percent)).collect()).collect()
}

impl Pair {
    /// Row u has each v of this test.
    fn new(nodes: usize, test: impl Fn(usize, usize) -> bool) -> Pair {
        let mut pair = Pair { first: vec![0], ends: Vec::new() };
        for u in 0..nodes {
            pair.ends.extend((0..nodes).filter(|&v| test(u, v)).map(|v| v as u16));
            pair.first.push(pair.ends.len() as u32);
        }
        pair
    }

    pub fn by_source(edges: &Edges) -> Pair {
        Pair::new(edges.len(), |u, v| edges[u][v])
    }

    pub fn by_target(edges: &Edges) -> Pair {
        Pair::new(edges.len(), |v, u| edges[u][v])
    }

    /// Tables by target of this kind.
    pub fn back(rng: &mut Rng, edges: &Edges, kind: Back) -> Pair {
        let nodes = edges.len();
        match kind {
            Back::Belongs => Pair::by_target(edges),
            Back::Edges => Pair::by_target(&changed(rng, edges)),
            Back::Other => Pair::by_target(&self::edges(rng, nodes)),
            Back::Damaged => Pair::by_target(edges).damaged(rng),
            Back::Length => Pair::by_target(edges).of_wrong_length(rng),
        }
    }

    /// Entries that break the rules of tables 3 and 4, or a list that is cut.
    pub fn damaged(mut self, rng: &mut Rng) -> Pair {
        for _ in 0..rng.within(1, 3) {
            match rng.below(5) {
                0 | 1 => {
                    let place = rng.below(self.first.len());
                    self.first[place] = rng.pick(&[0, 1, 2, 3, 5, 8, 13, 40, 65_536, u32::MAX]);
                }
                2 if !self.ends.is_empty() => {
                    let place = rng.below(self.ends.len());
                    self.ends[place] = rng.pick(&[0, 1, 2, 3, 5, 8, 9, 4_096, u16::MAX]);
                }
                3 => self.ends.truncate(rng.below(self.ends.len() + 1)),
                _ => rng.shuffle(&mut self.ends),
            }
        }
        self
    }

    fn of_wrong_length(mut self, rng: &mut Rng) -> Pair {
        match rng.below(3) {
            0 => self.first.truncate(rng.below(self.first.len())),
            1 => self.first.push(self.ends.len() as u32),
            _ => self.first.clear(),
        }
        self
    }
}

/// A few edges more or less.
fn changed(rng: &mut Rng, edges: &Edges) -> Edges {
    let mut edges = edges.clone();
    for _ in 0..rng.within(1, 4) {
        let (u, v) = (rng.below(edges.len()), rng.below(edges.len()));
        edges[u][v] = !edges[u][v];
    }
    edges
}
