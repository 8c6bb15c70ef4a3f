//! What the test crates share: a job with its own tables, the seeded generator with jobs and job texts made by it,
//! counts, the processor's clock, what trees cost, and tables in Markdown.

pub mod clock;
pub mod cost;
mod counts;
pub mod jobs;
mod rng;
pub mod table;
pub mod texts;
pub mod window;

pub use counts::Counts;
pub use rng::Rng;

/// The number at a place of the command line, or what stands for it.
pub fn argument(place: usize, missing: u64, usage: &str) -> u64 {
    match std::env::args().nth(place) {
        None => missing,
        Some(text) => text.parse().unwrap_or_else(|_| {
            eprintln!("{usage}, each a number");
            std::process::exit(2);
        }),
    }
}

/// The tuning of the tariff: the factor in iteration 2, its growth up / down, the histories' step.
#[derive(Clone, Copy, Debug, PartialEq, Eq)]
pub struct Tuning {
    pub first: u32,
    pub up: u32,
    pub down: u32,
    pub step: u32,
}

impl Tuning {
    /// That of a job text without a P line.
    pub const PLAIN: Tuning = Tuning { first: 50, up: 3, down: 2, step: 1 };

    /// In the order of the P line.
    pub fn numbers(self) -> [u32; 4] {
        [self.first, self.up, self.down, self.step]
    }
}

/// Tables 1 to 7, as 01 numbers them, 9 and 10, the limit of iterations, the tuning, the rule by which nets are routed again, where rule 2
/// holds after iteration `until`, and whether the job is timed: tables 9 and 10 of one that isn't may hold anything.
#[derive(Clone, Debug, PartialEq, Eq)]
pub struct Job {
    pub kind: Vec<u8>,
    pub capacity: Vec<u8>,
    pub first_edge: Vec<u32>,
    pub edge_target: Vec<u16>,
    pub source: Vec<u16>,
    pub first_sink: Vec<u32>,
    pub sink: Vec<u16>,
    pub delay: Vec<u16>,
    pub criticality: Vec<u8>,
    pub limit: u32,
    pub tuning: Tuning,
    pub rule: u32,
    pub until: u32,
    pub timed: u32,
}

/// How long tables 1 to 7, 9 and 10 are, in this order.
pub type Lengths = [usize; 9];

/// The rule of a job text without a V line.
pub const PLAIN_RULE: u32 = 1;

/// The second number of a V line that has none.
pub const PLAIN_UNTIL: u32 = 1;

/// How many terms a call may be lent.
pub const TERMS: usize = 8;

/// The terms of a call whose slice lacks all of them.
const PLAIN_TERMS: [u32; TERMS] = [0, 50, 3, 2, 1, PLAIN_RULE, PLAIN_UNTIL, 0];

impl Job {
    /// Nodes only: rows and nets are still to be added. Tuning and rule are the plain ones, and the job is untimed.
    pub fn bare(kind: Vec<u8>, capacity: Vec<u8>, limit: u32) -> Job {
        Job {
            kind,
            capacity,
            first_edge: vec![0],
            edge_target: Vec::new(),
            source: Vec::new(),
            first_sink: vec![0],
            sink: Vec::new(),
            delay: Vec::new(),
            criticality: Vec::new(),
            limit,
            tuning: Tuning::PLAIN,
            rule: PLAIN_RULE,
            until: PLAIN_UNTIL,
            timed: 0,
        }
    }

    /// From each node's row of targets and each net's source and sinks, with the plain tuning and rule.
    pub fn new(
        kind: Vec<u8>,
        capacity: Vec<u8>,
        rows: &[Vec<u16>],
        nets: &[(u16, impl AsRef<[u16]>)],
        limit: u32,
    ) -> Job {
        let mut job = Job::bare(kind, capacity, limit);
        for row in rows {
            job.add_row(row);
        }
        for (source, sinks) in nets {
            job.add_net(*source, sinks.as_ref());
        }
        job
    }

    /// Adds the next node's targets.
    pub fn add_row(&mut self, targets: &[u16]) {
        self.edge_target.extend(targets);
        self.first_edge.push(self.edge_target.len() as u32);
    }

    /// Adds a net.
    pub fn add_net(&mut self, source: u16, sinks: &[u16]) {
        self.source.push(source);
        self.sink.extend(sinks);
        self.first_sink.push(self.sink.len() as u32);
    }

    /// The same job with these delays and criticalities, timed.
    pub fn timed(self, delay: &[u16], criticality: &[u8]) -> Job {
        Job { delay: delay.to_vec(), criticality: criticality.to_vec(), timed: 1, ..self }
    }

    /// Any number but 0 says so.
    pub fn is_timed(&self) -> bool {
        self.timed != 0
    }

    /// A node's targets, if the tables are sound.
    pub fn row(&self, node: usize) -> &[u16] {
        &self.edge_target[self.first_edge[node] as usize..self.first_edge[node + 1] as usize]
    }

    /// A net's sinks, if the tables are sound.
    pub fn sinks(&self, net: usize) -> &[u16] {
        &self.sink[self.first_sink[net] as usize..self.first_sink[net + 1] as usize]
    }

    /// Tables of so many entries for the reader to fill, none of them 0.
    pub fn unread(lengths: Lengths) -> Job {
        let [kind, capacity, first_edge, edge_target, source, first_sink, sink, delay, criticality] = lengths;
        Job {
            kind: vec![0xa1; kind],
            capacity: vec![0xa2; capacity],
            first_edge: vec![0xa3a3_a3a3; first_edge],
            edge_target: vec![0xa4a4; edge_target],
            source: vec![0xa5a5; source],
            first_sink: vec![0xa6a6_a6a6; first_sink],
            sink: vec![0xa7a7; sink],
            delay: vec![0xa9a9; delay],
            criticality: vec![0xaa; criticality],
            limit: 0,
            tuning: Tuning { first: 0, up: 0, down: 0, step: 0 },
            rule: 0,
            until: 0,
            timed: 0,
        }
    }

    /// What a call is lent as table 8: limit, first, up, down, step, rule, until, and after that whether the job is timed.
    pub fn terms(&self) -> [u32; TERMS] {
        let Tuning { first, up, down, step } = self.tuning;
        [self.limit, first, up, down, step, self.rule, self.until, self.timed]
    }

    /// Sets all of them.
    pub fn set_terms(&mut self, terms: [u32; TERMS]) {
        let [limit, first, up, down, step, rule, until, timed] = terms;
        self.tuning = Tuning { first, up, down, step };
        (self.limit, self.rule, self.until, self.timed) = (limit, rule, until, timed);
    }

    /// Sets them to what a call takes from a slice: an entry that it lacks has its plain value.
    pub fn take_terms(&mut self, slice: &[u32]) {
        let mut terms = PLAIN_TERMS;
        terms.iter_mut().zip(slice).for_each(|(term, entry)| *term = *entry);
        self.set_terms(terms);
    }

    /// Takes the reader's twelve numbers: cuts the tables to what it filled, sets the terms. An untimed text fills nothing of tables 9 and 10.
    pub fn take_numbers(&mut self, numbers: &[u64]) {
        let counts: Vec<usize> = numbers.iter().map(|number| *number as usize).collect();
        self.kind.truncate(counts[0]);
        self.capacity.truncate(counts[0]);
        self.first_edge.truncate(counts[0] + 1);
        self.edge_target.truncate(counts[1]);
        self.source.truncate(counts[2]);
        self.first_sink.truncate(counts[2] + 1);
        self.sink.truncate(counts[3]);
        self.set_terms([4, 5, 6, 7, 8, 9, 10, 11].map(|place| counts[place] as u32));
        self.delay.truncate(if self.is_timed() { counts[0] } else { 0 });
        self.criticality.truncate(if self.is_timed() { counts[3] } else { 0 });
    }
}

#[cfg(test)]
mod tests {
    use super::*;

    #[test]
    fn tables_from_lists() {
        let job = Job::new(
            vec![0, 4, 1],
            vec![1, 2, 3],
            &[vec![1, 2], vec![], vec![0]],
            &[(0, [2, 1]), (1, [0, 2])],
            9,
        );
        let tables = Job {
            kind: vec![0, 4, 1],
            capacity: vec![1, 2, 3],
            first_edge: vec![0, 2, 2, 3],
            edge_target: vec![1, 2, 0],
            source: vec![0, 1],
            first_sink: vec![0, 2, 4],
            sink: vec![2, 1, 0, 2],
            delay: vec![],
            criticality: vec![],
            limit: 9,
            tuning: Tuning { first: 50, up: 3, down: 2, step: 1 },
            rule: 1,
            until: 1,
            timed: 0,
        };
        assert_eq!(job, tables);
        assert_eq!((job.row(0), job.row(1), job.row(2)), (&[1, 2][..], &[][..], &[0][..]));
        assert_eq!((job.sinks(0), job.sinks(1)), (&[2, 1][..], &[0, 2][..]));
    }

    #[test]
    fn numbers_cut_unread_tables() {
        for (timed, delays, criticalities) in [(0, 0, 0), (1, 2, 6)] {
            let mut job = Job::unread([9; 9]);
            job.take_numbers(&[2, 3, 4, 6, 7, 1000, 8, 4, 3, 2, 99, timed.into()]);
            let tuning = Tuning { first: 1000, up: 8, down: 4, step: 3 };
            let cut = Job::unread([2, 2, 3, 3, 4, 5, 6, delays, criticalities]);
            assert_eq!(job, Job { limit: 7, tuning, rule: 2, until: 99, timed, ..cut });
            assert_eq!(job.terms(), [7, 1000, 8, 4, 3, 2, 99, timed]);
        }
    }

    #[test]
    fn entries_that_a_slice_lacks_are_plain() {
        let mut job = Job::unread([0; 9]);
        for (slice, terms) in [
            (&[][..], [0, 50, 3, 2, 1, 1, 1, 0]),
            (&[9], [9, 50, 3, 2, 1, 1, 1, 0]),
            (&[9, 8, 7, 6], [9, 8, 7, 6, 1, 1, 1, 0]),
            (&[9, 8, 7, 6, 5, 4, 3], [9, 8, 7, 6, 5, 4, 3, 0]),
            (&[9, 8, 7, 6, 5, 4, 3, 2, 1], [9, 8, 7, 6, 5, 4, 3, 2]),
        ] {
            job.take_terms(slice);
            assert_eq!(job.terms(), terms);
        }
    }
}
