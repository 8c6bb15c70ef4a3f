//! From a job text to what the programs print.

use crate::{read, resume, resume_aimed, route, route_aimed, Answer};

/// The sizes of what a program lends.
pub mod sizes {
    /// Bytes of the job text, and as many each for the answer, log and work.
    pub const BYTES: usize = 65_536;
    /// "tables for 1,024 nodes, 8,192 edges, 512 nets and 4,096 sinks"
    pub const NODES: usize = 1_024;
    pub const EDGES: usize = 8_192;
    pub const NETS: usize = 512;
    pub const SINKS: usize = 4_096;
    /// Words of the log, of 4 bytes each.
    pub const WORDS: usize = BYTES / 4;
    /// Entries of the work slice, of 8 bytes each.
    pub const ENTRIES: usize = BYTES / 8;
}

/// The writer of either text.
pub type Writer = fn(&[u16], &[u32], &mut [u8]) -> Answer;

/// Tables 1 to 7, 9 and 10.
pub struct Tables {
    pub kind: Vec<u8>,
    pub capacity: Vec<u8>,
    pub first_edge: Vec<u32>,
    pub edge_target: Vec<u16>,
    pub source: Vec<u16>,
    pub first_sink: Vec<u32>,
    pub sink: Vec<u16>,
    pub delay: Vec<u16>,
    pub criticality: Vec<u8>,
}

/// A slice of so many entries, each this one.
fn lent<T: From<u8> + Clone>(length: usize, entry: u8) -> Vec<T> {
    vec![T::from(entry); length]
}

impl Tables {
    /// Tables of these lengths before they are read into.
    pub fn lent(lengths: [usize; 9], entry: u8) -> Tables {
        Tables {
            kind: lent(lengths[0], entry),
            capacity: lent(lengths[1], entry),
            first_edge: lent(lengths[2], entry),
            edge_target: lent(lengths[3], entry),
            source: lent(lengths[4], entry),
            first_sink: lent(lengths[5], entry),
            sink: lent(lengths[6], entry),
            delay: lent(lengths[7], entry),
            criticality: lent(lengths[8], entry),
        }
    }

    /// What a job of so many nodes, edges, nets and sinks has of them; an untimed one has nothing of the last two.
    fn cut(&self, [nodes, edges, nets, sinks]: [usize; 4], timed: bool) -> Tables {
        Tables {
            kind: self.kind[..nodes].to_vec(),
            capacity: self.capacity[..nodes].to_vec(),
            first_edge: self.first_edge[..=nodes].to_vec(),
            edge_target: self.edge_target[..edges].to_vec(),
            source: self.source[..nets].to_vec(),
            first_sink: self.first_sink[..=nets].to_vec(),
            sink: self.sink[..sinks].to_vec(),
            delay: if timed { self.delay[..nodes].to_vec() } else { vec![] },
            criticality: if timed { self.criticality[..sinks].to_vec() } else { vec![] },
        }
    }

    pub fn read(&mut self, job: &[u8]) -> Answer {
        read(
            job,
            &mut self.kind,
            &mut self.capacity,
            &mut self.first_edge,
            &mut self.edge_target,
            &mut self.source,
            &mut self.first_sink,
            &mut self.sink,
            &mut self.delay,
            &mut self.criticality,
        )
    }

    pub fn route(&self, terms: &[u32], work: &mut [u64], log: &mut [u32]) -> Answer {
        route(
            &self.kind,
            &self.capacity,
            &self.first_edge,
            &self.edge_target,
            &self.source,
            &self.first_sink,
            &self.sink,
            &self.delay,
            &self.criticality,
            terms,
            work,
            log,
        )
    }

    pub fn resume(&self, terms: &[u32], used: u64, work: &mut [u64], log: &mut [u32]) -> Answer {
        resume(
            &self.kind,
            &self.capacity,
            &self.first_edge,
            &self.edge_target,
            &self.source,
            &self.first_sink,
            &self.sink,
            &self.delay,
            &self.criticality,
            terms,
            used,
            work,
            log,
        )
    }

    pub fn route_aimed(&self, terms: &[u32], work: &mut [u64], log: &mut [u32]) -> Answer {
        route_aimed(
            &self.kind,
            &self.capacity,
            &self.first_edge,
            &self.edge_target,
            &self.source,
            &self.first_sink,
            &self.sink,
            &self.delay,
            &self.criticality,
            terms,
            work,
            log,
        )
    }

    pub fn resume_aimed(&self, terms: &[u32], used: u64, work: &mut [u64], log: &mut [u32]) -> Answer {
        resume_aimed(
            &self.kind,
            &self.capacity,
            &self.first_edge,
            &self.edge_target,
            &self.source,
            &self.first_sink,
            &self.sink,
            &self.delay,
            &self.criticality,
            terms,
            used,
            work,
            log,
        )
    }
}

/// What a run from text to text is lent.
pub struct Lent {
    pub tables: Tables,
    pub work: Vec<u64>,
    pub log: Vec<u32>,
    /// For the text that is written.
    pub buffer: Vec<u8>,
}

/// A job that was routed: its table 5, and the words used of the log.
pub struct Routed {
    source: Vec<u16>,
    pub words: usize,
}

impl Lent {
    /// Tables of these lengths, so many entries of work, words of the log and bytes of the buffer, all holding this.
    pub fn new(tables: [usize; 9], [entries, words, bytes]: [usize; 3], entry: u8) -> Lent {
        Lent {
            tables: Tables::lent(tables, entry),
            work: lent(entries, entry),
            log: lent(words, entry),
            buffer: lent(bytes, entry),
        }
    }

    /// What the programs are lent.
    pub fn program() -> Lent {
        use sizes::{BYTES, EDGES, ENTRIES, NETS, NODES, SINKS, WORDS};
        let tables = [NODES, NODES, NODES + 1, EDGES, NETS, NETS + 1, SINKS, NODES, SINKS];
        Lent::new(tables, [ENTRIES, WORDS, BYTES], 0)
    }

    /// Reads a job and routes it; the first refusal ends it.
    fn route(&mut self, job: &[u8]) -> Result<Routed, Vec<u64>> {
        let numbers = accepted(self.tables.read(job))?;
        let [nodes, edges, nets, sinks, ref terms @ ..] = numbers[..] else {
            panic!("the reader has twelve numbers");
        };
        let timed = terms.last() == Some(&1);
        let job = self.tables.cut([nodes, edges, nets, sinks].map(|count| count as usize), timed);
        let terms: Vec<u32> = terms.iter().map(|number| *number as u32).collect();
        let numbers = accepted(job.route(&terms, &mut self.work, &mut self.log))?;
        Ok(Routed { source: job.source, words: numbers[2] as usize })
    }

    fn write(&mut self, routed: &Routed, writer: Writer) -> Answer {
        writer(&routed.source, &self.log[..routed.words], &mut self.buffer)
    }

    /// From the job text to its routes text or its picture.
    pub fn run(&mut self, job: &[u8], writer: Writer) -> Answer {
        match self.route(job) {
            Ok(routed) => self.write(&routed, writer),
            Err(refusal) => Answer::refused(&refusal, 1),
        }
    }

    /// A program's input, of which more than 65,536 bytes are refused by 12, routed.
    pub fn take(&mut self, input: &[u8]) -> Result<Routed, Vec<u64>> {
        if input.len() > sizes::BYTES {
            return Err(vec![12, sizes::BYTES as u64]);
        }
        self.route(input)
    }

    /// What a program prints of it, text or line of the refusal: so many bytes of the buffer, none where the line doesn't fit.
    pub fn print(&mut self, taken: &Result<Routed, Vec<u64>>, writer: Writer) -> usize {
        let written = match taken {
            Ok(routed) => accepted(self.write(routed, writer)),
            Err(refusal) => Err(refusal.clone()),
        };
        let refusal = match written {
            Ok(numbers) => return numbers[0] as usize,
            Err(refusal) => refusal,
        };
        let numbers: String = refusal.iter().map(|number| format!(",{number}")).collect();
        let line = format!("X{numbers}\n");
        let Some(start) = self.buffer.get_mut(..line.len()) else { return 0 };
        start.copy_from_slice(line.as_bytes());
        line.len()
    }

    /// A program's answer to an input: so many bytes of the buffer.
    pub fn respond(&mut self, input: &[u8], writer: Writer) -> usize {
        let taken = self.take(input);
        self.print(&taken, writer)
    }
}

/// A call's own numbers, or its refusal.
fn accepted(answer: Answer) -> Result<Vec<u64>, Vec<u64>> {
    if answer.refusal.is_empty() {
        Ok(answer.numbers)
    } else {
        Err(answer.refusal)
    }
}
