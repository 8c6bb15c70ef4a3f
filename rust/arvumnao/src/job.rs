//! A job: the block, its nets, and the terms on which they are routed.

use crate::refusal::{LineFault, Refusal, TableFault};
use crate::{out, raw};

/// The most nodes that a job has.
pub const NODES: usize = 4_096;
/// The most edges.
pub const EDGES: usize = 32_768;
/// The most nets.
pub const NETS: usize = 512;
/// The most sinks of all nets together.
pub const SINKS: usize = 4_096;

/// The highest limit of iterations.
pub const LIMIT: u32 = 100;

/// The most nodes of a timed job.
pub const TIMED_NODES: usize = 1_024;
/// The highest limit of a timed job.
pub const TIMED_LIMIT: u32 = 40;

/// The block: wires and pins are its nodes, switches its edges.
#[derive(Clone, Debug, PartialEq, Eq)]
pub struct Block {
    /// Table 1: each node's [kind](crate::kind).
    pub kind: Vec<u8>,
    /// Table 2: how many nets may use each node at once, 1 to 255.
    pub capacity: Vec<u8>,
    /// Table 3: where each node's row in `edge_target` begins; the last entry is that table's length.
    pub first_edge: Vec<u32>,
    /// Table 4: to which nodes each node has a switch, row after row, each row rising.
    pub edge_target: Vec<u16>,
}

/// The nets: each has a source and one or more sinks. Nets of one source are routed as one, under the first one's number.
#[derive(Clone, Debug, PartialEq, Eq)]
pub struct Nets {
    /// Table 5: each net's source node.
    pub source: Vec<u16>,
    /// Table 6: where each net's sinks in `sink` begin; the last entry is that table's length.
    pub first_sink: Vec<u32>,
    /// Table 7: the sink nodes, net after net.
    pub sink: Vec<u16>,
}

/// The terms on which a job is routed. They count as table 8.
///
/// The default is the highest limit, and the tariff and rule of a job text without P and V lines.
///
/// ```
/// use arvumnao::{Job, Terms};
///
/// let mut job = Job::read(include_bytes!("../../../examples/job_crowded.txt"))?;
/// assert_eq!(job.terms, Terms { limit: 9, rule: 2, ..Terms::default() });
/// assert_eq!(job.route()?.turns, 5);
/// job.terms.rule = 1; // every net is routed again in every iteration
/// assert_eq!(job.route()?.turns, 6);
/// # Ok::<(), arvumnao::Refusal>(())
/// ```
#[derive(Clone, Copy, Debug, PartialEq, Eq)]
pub struct Terms {
    /// The most iterations, 1 to 100; of a timed job at most [`TIMED_LIMIT`].
    pub limit: u32,
    /// The congestion factor in iteration 2, in hundredths, 0 to 1,000.
    pub first: u32,
    /// From iteration 3 on the factor grows by `up / down`: `down` to 8.
    pub up: u32,
    /// 1 to 4.
    pub down: u32,
    /// By how much a node's history grows for each net too many: 1 or 2.
    pub step: u32,
    /// Which nets are routed again: 1, all of them in every iteration; 2, after iteration `until` only those whose tree has an overfull
    /// node.
    pub rule: u32,
    /// 1 to 99; ignored under rule 1. It is the k of a line `V,2,k`.
    pub until: u32,
}

/// What makes a job timed: each node's delay, and how critical each sink is.
///
/// A node's price for a sink is criticality × delay × 100 + (10 − criticality) × its price in a job that isn't timed. A net's sinks are
/// joined by falling criticality, each by a cheapest path at the prices for it. A sink that such a path passes is joined without a turn. A
/// timed job has at most [`TIMED_NODES`] nodes and a limit of at most [`TIMED_LIMIT`].
///
/// ```
/// use arvumnao::{Job, Timing};
///
/// let mut job = Job::read(include_bytes!("../../../examples/timed.txt"))?;
/// assert_eq!(job.timing, Some(Timing { delay: vec![0, 60, 10, 0, 0], criticality: vec![0, 9] }));
/// // sink 4 is critical: it goes first, by the longer and quicker wire 2
/// assert_eq!(job.route()?.log.routes(&job.nets)?, "R,1,2\nB,0,0,2\nB,0,2,4\nB,0,0,1\nB,0,1,3\n");
/// job.timing = None;
/// assert_eq!(job.route()?.log.routes(&job.nets)?, "R,1,2\nB,0,0,1\nB,0,1,3\nB,0,1,4\n");
/// # Ok::<(), arvumnao::Refusal>(())
/// ```
#[derive(Clone, Debug, Default, PartialEq, Eq)]
pub struct Timing {
    /// Table 9: each node's delay, 0 to 1,000.
    pub delay: Vec<u16>,
    /// Table 10: the criticality of each entry of [`Nets::sink`], 0 to 9, in tenths. If nets of one source have a sink in common,
    /// its first listing counts.
    pub criticality: Vec<u8>,
}

/// A job: what is routed.
///
/// ```
/// use arvumnao::{kind, Job, Terms};
///
/// let mut job = Job { terms: Terms { limit: 10, ..Terms::default() }, ..Job::default() };
/// job.block.add(kind::SOURCE, 1, &[1]); // node 0, with a switch to node 1
/// job.block.add(kind::wire(2), 1, &[2, 3]);
/// job.block.add(kind::SINK, 1, &[]);
/// job.block.add(kind::SINK, 1, &[]);
/// job.nets.add(0, &[3, 2]);
///
/// let answer = job.route()?;
/// assert_eq!(answer.log.routes(&job.nets)?, "R,1,2\nB,0,0,1\nB,0,1,3\nB,0,1,2\n");
/// # Ok::<(), arvumnao::Refusal>(())
/// ```
#[derive(Clone, Debug, Default, PartialEq, Eq)]
pub struct Job {
    /// Tables 1 to 4.
    pub block: Block,
    /// Tables 5 to 7.
    pub nets: Nets,
    /// Limit, tuning and rule.
    pub terms: Terms,
    /// Tables 9 and 10, which a timed job has.
    pub timing: Option<Timing>,
}

impl Default for Block {
    /// No nodes.
    fn default() -> Block {
        Block { kind: Vec::new(), capacity: Vec::new(), first_edge: vec![0], edge_target: Vec::new() }
    }
}

impl Block {
    /// Adds the next node with its switches, whose targets must rise.
    pub fn add(&mut self, kind: u8, capacity: u8, targets: &[u16]) {
        self.kind.push(kind);
        self.capacity.push(capacity);
        self.edge_target.extend(targets);
        self.first_edge.push(self.edge_target.len() as u32);
    }

    /// Whether a switch leads from one node to another. False if table 3 or 4 lacks the nodes.
    pub fn has_edge(&self, from: u32, to: u32) -> bool {
        let place = |node: usize| Some(*self.first_edge.get(node)? as usize);
        let row = place(from as usize).zip(place(from as usize + 1));
        let row = row.and_then(|(first, end)| self.edge_target.get(first..end));
        row.is_some_and(|row| row.binary_search_by(|target| u32::from(*target).cmp(&to)).is_ok())
    }

    /// The refusal of one of its tables.
    pub(crate) fn faulty(&self, table: u64) -> Refusal {
        self.faulty_with(&[], table)
    }

    /// The same if table 9 is lent with them.
    pub(crate) fn faulty_with(&self, delay: &[u16], table: u64) -> Refusal {
        let timing = Some(Timing { delay: delay.to_vec(), ..Timing::default() });
        let job = Job { block: self.clone(), timing, ..Job::default() };
        Refusal::Table(TableFault::find(&job, table as u32))
    }
}

impl Default for Nets {
    /// No nets.
    fn default() -> Nets {
        Nets { source: Vec::new(), first_sink: vec![0], sink: Vec::new() }
    }
}

impl Nets {
    /// Adds the next net.
    pub fn add(&mut self, source: u16, sinks: &[u16]) {
        self.source.push(source);
        self.sink.extend(sinks);
        self.first_sink.push(self.sink.len() as u32);
    }

    /// A net's sinks as listed; none if tables 6 and 7 don't have them.
    pub fn sinks(&self, net: usize) -> &[u16] {
        let place = |owner: usize| Some(*self.first_sink.get(owner)? as usize);
        let row = place(net).zip(net.checked_add(1).and_then(place));
        row.and_then(|(first, end)| self.sink.get(first..end)).unwrap_or(&[])
    }

    /// The sinks to which a net is routed. The first net of a source has the sinks of all nets of that source, in listed order, each once;
    /// any other net has none.
    ///
    /// ```
    /// let mut nets = arvumnao::Nets::default();
    /// nets.add(0, &[7, 5]);
    /// nets.add(1, &[6]);
    /// nets.add(0, &[5, 8]);
    /// assert_eq!(nets.joined_sinks(0), [7, 5, 8]);
    /// assert_eq!(nets.joined_sinks(2), []);
    /// ```
    pub fn joined_sinks(&self, net: usize) -> Vec<u16> {
        let mut list = Vec::new();
        let source = self.source.get(net);
        if self.source.iter().take(net).any(|other| Some(other) == source) {
            return list;
        }
        for other in (net..self.source.len()).filter(|other| self.source.get(*other) == source) {
            for sink in self.sinks(other) {
                if !list.contains(sink) {
                    list.push(*sink);
                }
            }
        }
        list
    }
}

impl Default for Terms {
    fn default() -> Terms {
        Terms { limit: 100, first: 50, up: 3, down: 2, step: 1, rule: 1, until: 1 }
    }
}

impl Timing {
    /// Cuts the tables to a job with this many nodes and sinks.
    fn cut(&mut self, nodes: usize, sinks: usize) {
        self.delay.truncate(nodes);
        self.criticality.truncate(sinks);
    }
}

impl Job {
    /// Reads a job text. Refused by [`Refusal::Line`], which says what is wrong with which line, and by [`Refusal::TooLarge`].
    ///
    /// ```
    /// let text = b"F,2,1,1,1\nN,0,0,1\nN,1,1,0\nE,0,1\nS,0,0\nT,0,1\n";
    /// let refusal = arvumnao::Job::read(text).unwrap_err();
    /// assert_eq!(refusal.to_string(), "line 3: capacity 0 is beyond 1 to 255: \"N,1,1,0\"");
    /// assert_eq!(refusal.numbers(), [2, 3]);
    /// ```
    pub fn read(text: &[u8]) -> Result<Job, Refusal> {
        let mut job = Job::longest();
        let mut timing = Timing { delay: vec![0; NODES], criticality: vec![0; SINKS] };
        let Job { block, nets, .. } = &mut job;
        let told = out(|out| {
            raw::read(
                text,
                &mut block.kind,
                &mut block.capacity,
                &mut block.first_edge,
                &mut block.edge_target,
                &mut nets.source,
                &mut nets.first_sink,
                &mut nets.sink,
                &mut timing.delay,
                &mut timing.criticality,
                out,
            )
        });
        match *raw::refusal(&told) {
            [] => {}
            [number @ 1..=3, line] => return Err(Refusal::Line(LineFault::find(text, number, line))),
            [15, nodes, limit] => return Err(Refusal::too_large(nodes, limit)),
            ref numbers => return Err(Refusal::unexpected(numbers)),
        }
        job.cut(raw::own(&told), timing);
        Ok(job)
    }

    /// Tables 1 to 7 that are long enough for every job.
    fn longest() -> Job {
        let (kind, capacity) = (vec![0; NODES], vec![0; NODES]);
        let (first_edge, edge_target) = (vec![0; NODES + 1], vec![0; EDGES]);
        let (source, first_sink, sink) = (vec![0; NETS], vec![0; NETS + 1], vec![0; SINKS]);
        let block = Block { kind, capacity, first_edge, edge_target };
        Job { block, nets: Nets { source, first_sink, sink }, ..Job::default() }
    }

    /// Cuts the tables to what the reader filled, and takes the terms that it read, and the timing of a timed job.
    fn cut(&mut self, numbers: &[u64; 12], mut timing: Timing) {
        let [nodes, edges, nets, sinks, ..] = numbers.map(|number| number as usize);
        self.block.kind.truncate(nodes);
        self.block.capacity.truncate(nodes);
        self.block.first_edge.truncate(nodes + 1);
        self.block.edge_target.truncate(edges);
        self.nets.source.truncate(nets);
        self.nets.first_sink.truncate(nets + 1);
        self.nets.sink.truncate(sinks);
        let [.., limit, first, up, down, step, rule, until, timed] = numbers.map(|number| number as u32);
        self.terms = Terms { limit, first, up, down, step, rule, until };
        timing.cut(nodes, sinks);
        self.timing = (timed != 0).then_some(timing);
    }

    /// The terms in the order in which the library takes them, with this limit.
    pub(crate) fn numbers(&self, limit: u32) -> [u32; 8] {
        let Terms { limit: _, first, up, down, step, rule, until } = self.terms;
        [limit, first, up, down, step, rule, until, self.timing.is_some().into()]
    }

    /// Tables 9 and 10; empty if the job isn't timed.
    pub(crate) fn timed_tables(&self) -> (&[u16], &[u8]) {
        self.timing.as_ref().map_or((&[], &[]), |timing| (&timing.delay, &timing.criticality))
    }
}
