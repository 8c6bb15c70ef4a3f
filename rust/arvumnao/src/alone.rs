//! Price and search called alone.

use crate::job::Block;
use crate::refusal::Refusal;
use crate::{out, raw};

/// What the price of a node depends on.
///
/// ```
/// use arvumnao::{kind, Use};
///
/// // one other net is on a wire of capacity 2, then two are
/// let wire = Use { kind: kind::wire(1).into(), factor: 50, others: 1, capacity: 2, history: 1 };
/// assert_eq!(wire.price()?, 2000);
/// assert_eq!(Use { others: 2, ..wire }.price()?, 3000);
///
/// let refusal = Use { capacity: 0, ..wire }.price().unwrap_err();
/// assert_eq!(refusal.to_string(), "capacity 0 is beyond 1 to 255");
/// # Ok::<(), arvumnao::Refusal>(())
/// ```
#[derive(Clone, Copy, Debug, PartialEq, Eq)]
pub struct Use {
    /// The node's [kind](crate::kind), 0 to 53.
    pub kind: u32,
    /// The congestion factor of the iteration, 0 to 65,535.
    pub factor: u32,
    /// How many other nets have the node in their tree, 0 to 511.
    pub others: u32,
    /// The node's capacity, 1 to 255.
    pub capacity: u32,
    /// Its history, 1 to 101,179.
    pub history: u32,
}

impl Use {
    /// history × base cost × (100 + factor × excess), where excess is others + 1 − capacity, or 0 if that is negative. Refused by
    /// [`Refusal::Number`].
    pub fn price(self) -> Result<u64, Refusal> {
        let Use { kind, factor, others, capacity, history } = self;
        let told = out(|out| raw::price(kind, factor, others, capacity, history, out));
        self.priced(&told, 0, 0)
    }

    /// The price for a sink of a timed job. The node has a delay of 0 to 1,000 and the sink a criticality of 0 to 9:
    /// criticality × delay × 100 + (10 − criticality) × the price. Refused by [`Refusal::Number`].
    ///
    /// ```
    /// let wire = arvumnao::Use { kind: 4, factor: 0, others: 0, capacity: 1, history: 1 };
    /// assert_eq!(wire.timed_price(60, 0)?, 20_000);
    /// assert_eq!(wire.timed_price(60, 9)?, 54_000 + 2_000);
    /// # Ok::<(), arvumnao::Refusal>(())
    /// ```
    pub fn timed_price(self, delay: u32, criticality: u32) -> Result<u64, Refusal> {
        let Use { kind, factor, others, capacity, history } = self;
        let told =
            out(|out| raw::timed_price(kind, factor, others, capacity, history, delay, criticality, out));
        self.priced(&told, delay, criticality)
    }

    /// The answer of either call.
    fn priced(self, told: &[u64; raw::OUT], delay: u32, criticality: u32) -> Result<u64, Refusal> {
        match *raw::refusal(told) {
            [] => {
                let [price] = raw::own(told);
                Ok(*price)
            }
            [13, place] => Err(self.bad_number(delay, criticality, place)),
            ref numbers => Err(Refusal::unexpected(numbers)),
        }
    }

    /// The refusal of the number at a place.
    fn bad_number(self, delay: u32, criticality: u32, place: u64) -> Refusal {
        let numbers = [
            ("kind", self.kind, "0 to 53"),
            ("factor", self.factor, "0 to 65535"),
            ("others", self.others, "0 to 511"),
            ("capacity", self.capacity, "1 to 255"),
            ("history", self.history, "1 to 101179"),
            ("delay", delay, "0 to 1000"),
            ("criticality", criticality, "0 to 9"),
        ];
        let (name, value, bounds) = numbers[(place as usize).min(6)];
        Refusal::Number { place, reason: format!("{name} {value} is beyond {bounds}") }
    }
}

/// What a search alone starts from: the prices' numbers for each node, and the nodes of the tree. Entries after the block's nodes
/// are ignored.
#[derive(Clone, Debug, Default, PartialEq, Eq)]
pub struct Congestion {
    /// The congestion factor, 0 to 65,535.
    pub factor: u32,
    /// Each node's history, 1 to 101,179; to 39,859 in a timed search.
    pub history: Vec<u32>,
    /// How many other nets have each node, 0 to 511.
    pub others: Vec<u16>,
    /// 1 for each node of the tree, 0 for the rest.
    pub in_tree: Vec<u8>,
}

impl Block {
    /// The distance of each node from the tree: the cost of a cheapest path, none if there is no path. Refused by
    /// [`Refusal::Table`] and [`Refusal::Number`].
    ///
    /// ```
    /// use arvumnao::{kind, Block, Congestion};
    ///
    /// let mut block = Block::default();
    /// block.add(kind::SOURCE, 1, &[1]);
    /// block.add(kind::wire(3), 1, &[]);
    /// block.add(kind::SINK, 1, &[]);
    /// let start = Congestion { factor: 0, history: vec![1; 3], others: vec![0; 3], in_tree: vec![1, 0, 0] };
    /// assert_eq!(block.distances(&start)?, [Some(0), Some(6000), None]);
    /// # Ok::<(), arvumnao::Refusal>(())
    /// ```
    pub fn distances(&self, start: &Congestion) -> Result<Vec<Option<u64>>, Refusal> {
        let mut work = vec![0; 8 * self.kind.len()];
        let told = out(|out| {
            raw::search(
                &self.kind,
                &self.capacity,
                &self.first_edge,
                &self.edge_target,
                start.factor,
                &mut work,
                &start.history,
                &start.others,
                &start.in_tree,
                out,
            )
        });
        match *raw::refusal(&told) {
            [] => Ok(self.found(work)),
            [5, table] => Err(self.faulty(table)),
            [13, place] => Err(self.bad_number(start, 101_179, 0, place)),
            ref numbers => Err(Refusal::unexpected(numbers)),
        }
    }

    /// The same by the prices for a sink of a timed job: each node has a delay (table 9), the sink a criticality, 0 to 9. Refused as
    /// [`Block::distances`] is, and by [`Refusal::TooLarge`].
    ///
    /// ```
    /// use arvumnao::{kind, Block, Congestion};
    ///
    /// let mut block = Block::default();
    /// block.add(kind::SOURCE, 1, &[1, 2]);
    /// block.add(kind::wire(1), 1, &[]);
    /// block.add(kind::wire(3), 1, &[]);
    /// let start = Congestion { factor: 0, history: vec![1; 3], others: vec![0; 3], in_tree: vec![1, 0, 0] };
    /// assert_eq!(block.timed_distances(&start, &[0, 60, 10], 0)?, [Some(0), Some(20_000), Some(60_000)]);
    /// assert_eq!(block.timed_distances(&start, &[0, 60, 10], 9)?, [Some(0), Some(56_000), Some(15_000)]);
    /// # Ok::<(), arvumnao::Refusal>(())
    /// ```
    pub fn timed_distances(
        &self,
        start: &Congestion,
        delay: &[u16],
        criticality: u32,
    ) -> Result<Vec<Option<u64>>, Refusal> {
        let mut work = vec![0; 8 * self.kind.len()];
        let told = out(|out| {
            raw::timed_search(
                &self.kind,
                &self.capacity,
                &self.first_edge,
                &self.edge_target,
                delay,
                start.factor,
                criticality,
                &mut work,
                &start.history,
                &start.others,
                &start.in_tree,
                out,
            )
        });
        match *raw::refusal(&told) {
            [] => Ok(self.found(work)),
            [5, table] => Err(self.faulty_with(delay, table)),
            [15, nodes, limit] => Err(Refusal::too_large(nodes, limit)),
            [13, place] => Err(self.bad_number(start, 39_859, criticality, place)),
            ref numbers => Err(Refusal::unexpected(numbers)),
        }
    }

    /// The distances that a search leaves in its work memory.
    fn found(&self, mut work: Vec<u64>) -> Vec<Option<u64>> {
        work.truncate(self.kind.len());
        work.into_iter().map(|distance| (distance != u64::MAX).then_some(distance)).collect()
    }

    /// The refusal of a node's numbers, whose history is at most `history_most`, of the factor, or of the criticality.
    fn bad_number(&self, start: &Congestion, history_most: u32, criticality: u32, place: u64) -> Refusal {
        let (node, nodes) = (place as usize, self.kind.len());
        let shown = |entry: Option<u32>| entry.map_or(String::from("missing"), |entry| entry.to_string());
        let reason = if node > nodes {
            format!("criticality {criticality} is beyond 0 to 9")
        } else if node == nodes {
            format!("factor {} is beyond 0 to 65535", start.factor)
        } else {
            format!(
                "node {node}: history {}, of 1 to {history_most}, others {}, of 0 to 511, and tree mark {}, of 0 and 1: one of them is bad",
                shown(start.history.get(node).copied()),
                shown(start.others.get(node).copied().map(u32::from)),
                shown(start.in_tree.get(node).copied().map(u32::from)),
            )
        };
        Refusal::Number { place, reason }
    }
}
