//! Price and search called alone, with numbers at and beyond their bounds.

use crate::compare::Case;
use crate::damage;
use crate::lengths::around;
use job::{jobs, Job, Rng};

const KINDS: [u32; 8] = [0, 1, 2, 3, 4, 15, 16, 53];
const BAD_KINDS: [u32; 5] = [54, 55, 256, 260, u32::MAX];
const FACTORS: [u32; 8] = [0, 1, 50, 75, 112, 48_997, 65_534, 65_535];
const BAD_FACTORS: [u32; 4] = [65_536, 65_586, 131_072, u32::MAX];
const OTHERS: [u32; 9] = [0, 1, 2, 3, 254, 255, 256, 510, 511];
const BAD_OTHERS: [u32; 4] = [512, 513, 65_535, u32::MAX];
const CAPACITIES: [u32; 7] = [1, 2, 3, 4, 128, 254, 255];
const BAD_CAPACITIES: [u32; 4] = [0, 256, 257, u32::MAX];
const HISTORIES: [u32; 8] = [1, 2, 3, 1_000, 50_590, 50_591, 101_178, 101_179];
const BAD_HISTORIES: [u32; 4] = [0, 101_180, 131_073, u32::MAX];
const TIMED_HISTORIES: [u32; 6] = [1, 2, 3, 1_000, 39_858, 39_859];
const BAD_TIMED_HISTORIES: [u32; 6] = [0, 39_860, 50_590, 101_179, 101_180, u32::MAX];
const DELAYS: [u32; 6] = [0, 1, 20, 500, 999, 1_000];
const BAD_DELAYS: [u32; 5] = [1_001, 1_002, 65_536, 66_536, u32::MAX];
const CRITICALITIES: [u32; 6] = [0, 1, 5, 7, 8, 9];
const BAD_CRITICALITIES: [u32; 5] = [10, 11, 256, 265, u32::MAX];

/// A good number, once in 12 draws a bad one.
fn number(rng: &mut Rng, good: &[u32], bad: &[u32]) -> u32 {
    if rng.once_in(12) {
        rng.pick(bad)
    } else {
        rng.pick(good)
    }
}

/// A call of the price, timed or not.
pub fn price(rng: &mut Rng) -> Case {
    let history =
        if rng.percent(40) { rng.within(1, 101_179) as u32 } else { number(rng, &HISTORIES, &BAD_HISTORIES) };
    Case::Price {
        kind: number(rng, &KINDS, &BAD_KINDS),
        factor: number(rng, &FACTORS, &BAD_FACTORS),
        others: number(rng, &OTHERS, &BAD_OTHERS),
        capacity: number(rng, &CAPACITIES, &BAD_CAPACITIES),
        history,
        timing: rng
            .percent(50)
            .then(|| [number(rng, &DELAYS, &BAD_DELAYS), number(rng, &CRITICALITIES, &BAD_CRITICALITIES)]),
    }
}

/// A line of so many of the longest wires, every number at its bound.
fn dearest(nodes: usize, history: u32, criticality: Option<u32>) -> Case {
    let mut graph = jobs::line(nodes);
    graph.kind.fill(53);
    graph.delay = vec![1_000; nodes];
    let mut in_tree = vec![0; nodes];
    in_tree[0] = 1;
    let lists = Lists { history: vec![history; nodes], others: vec![511; nodes], in_tree };
    lists.case(graph, 65_535, criticality, 8 * nodes)
}

/// The same with about as many nodes as a timed search may have; one in two has something else wrong with it.
fn timed_dearest(rng: &mut Rng) -> Case {
    let nodes = rng.pick(&[1_024, 1_024, 1_025, 1_026, 4_096]);
    let mut case = dearest(nodes, 39_859, Some(rng.pick(&[0, 0, 9, 10])));
    let Case::Search { graph, work, history, .. } = &mut case else { return case };
    match rng.below(6) {
        0 => damage::delays(rng, graph),
        1 => work.truncate(rng.below(8 * nodes)),
        2 => history.truncate(rng.below(nodes)),
        _ => {}
    }
    case
}

/// A call of the timed search; one in a few has something wrong with it, or more nodes than it may have.
pub fn timed_search(rng: &mut Rng) -> Case {
    if rng.once_in(50) {
        return timed_dearest(rng);
    }
    let job = jobs::job(rng);
    let mut graph = jobs::timed(rng, job);
    let nodes = graph.kind.len();
    let lists = Lists::new(rng, nodes, (&TIMED_HISTORIES, &BAD_TIMED_HISTORIES));
    if rng.percent(15) {
        damage::damage_graph(rng, &mut graph);
    }
    if rng.percent(10) {
        damage::delays(rng, &mut graph);
    }
    let length = if rng.percent(15) { around(rng, 8 * nodes, 9) } else { 8 * nodes + rng.below(3) };
    let factor = if rng.percent(8) { rng.pick(&BAD_FACTORS) } else { rng.pick(&FACTORS) };
    let criticality = number(rng, &CRITICALITIES, &BAD_CRITICALITIES);
    lists.case(graph, factor, Some(criticality), length)
}

/// A call of the search; one in a few has something wrong with it.
pub fn search(rng: &mut Rng) -> Case {
    if rng.once_in(2_000) {
        return dearest(4_096, 101_179, None);
    }
    let mut graph = jobs::job(rng);
    if rng.once_in(500) {
        graph = jobs::full(182, 32_768);
    }
    let nodes = graph.kind.len();
    let lists = Lists::new(rng, nodes, (&HISTORIES, &BAD_HISTORIES));
    let mut length = 8 * nodes + rng.below(3);
    if rng.percent(15) {
        damage::damage_graph(rng, &mut graph);
    }
    if rng.percent(15) {
        length = around(rng, 8 * nodes, 9);
    }
    let factor = if rng.percent(8) { rng.pick(&BAD_FACTORS) } else { rng.pick(&FACTORS) };
    lists.case(graph, factor, None, length)
}

/// The three lists of a search.
struct Lists {
    history: Vec<u32>,
    others: Vec<u16>,
    in_tree: Vec<u8>,
}

impl Lists {
    /// For so many nodes; histories are at times of these good ones, and of these bad ones.
    fn new(rng: &mut Rng, nodes: usize, (good, bad): (&[u32], &[u32])) -> Lists {
        let mut lists = Lists {
            history: (0..nodes).map(|_| rng.pick(&[1, 1, 1, 2, 3, 7])).collect(),
            others: (0..nodes).map(|_| rng.pick(&[0, 0, 1, 1, 2, 5])).collect(),
            in_tree: (0..nodes).map(|_| u8::from(rng.once_in(6))).collect(),
        };
        if rng.percent(20) {
            lists.extremes(rng, good);
        }
        if rng.percent(30) {
            lists.one_mark(rng);
        }
        if rng.percent(30) {
            lists.longer(rng);
        }
        if rng.percent(20) {
            lists.wrong(rng, bad);
            if rng.percent(30) {
                lists.wrong(rng, bad);
            }
        }
        lists
    }

    /// Numbers at their bounds.
    fn extremes(&mut self, rng: &mut Rng, histories: &[u32]) {
        self.history.iter_mut().for_each(|entry| *entry = rng.pick(histories));
        self.others.iter_mut().for_each(|entry| *entry = rng.pick(&OTHERS) as u16);
    }

    /// One node in the tree, or none.
    fn one_mark(&mut self, rng: &mut Rng) {
        self.in_tree.fill(0);
        if !self.in_tree.is_empty() && !rng.once_in(6) {
            let node = rng.below(self.in_tree.len());
            self.in_tree[node] = 1;
        }
    }

    /// Entries past the node count, which are unread.
    fn longer(&mut self, rng: &mut Rng) {
        self.history.extend((0..rng.below(3)).map(|_| 0));
        self.others.extend((0..rng.below(3)).map(|_| u16::MAX));
        self.in_tree.extend((0..rng.below(3)).map(|_| 2));
    }

    /// A list too short or an entry bad.
    fn wrong(&mut self, rng: &mut Rng, histories: &[u32]) {
        match rng.below(6) {
            0 => self.history.truncate(rng.below(self.history.len() + 1)),
            1 => self.others.truncate(rng.below(self.others.len() + 1)),
            2 => self.in_tree.truncate(rng.below(self.in_tree.len() + 1)),
            3 => set(rng, &mut self.history, histories),
            4 => set(rng, &mut self.others, &[512, 513, 65_535]),
            _ => set(rng, &mut self.in_tree, &[2, 3, 128, 255]),
        }
    }

    fn case(self, graph: Job, factor: u32, criticality: Option<u32>, length: usize) -> Case {
        let Lists { history, others, in_tree } = self;
        Case::Search { graph, factor, criticality, work: work(length), history, others, in_tree }
    }
}

/// Puts one of the choices at a random place.
fn set<T: Copy>(rng: &mut Rng, list: &mut [T], choices: &[T]) {
    if !list.is_empty() {
        let place = rng.below(list.len());
        list[place] = rng.pick(choices);
    }
}

/// A work slice with old content.
pub fn work(length: usize) -> Vec<u64> {
    (0..length as u64).map(|place| 0xeeee_0000_0000_0001 + place).collect()
}
