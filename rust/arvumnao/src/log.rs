//! The log of a run: a record for each turn.

use crate::job::Nets;
use crate::refusal::{Refusal, TableFault};
use crate::{out, raw};
use std::fmt;

/// A log: whole records, one after the other.
#[derive(Clone, Debug, Default, PartialEq, Eq)]
pub struct Log {
    words: Vec<u32>,
}

/// A turn: in an iteration, a net's tree was joined to one of its sinks.
///
/// ```
/// # let job = arvumnao::Job::read(include_bytes!("../../../examples/job_b.txt"))?;
/// let answer = job.route()?;
/// let turn = answer.log.records().last().unwrap();
/// assert_eq!((turn.iteration, turn.net, turn.sink, turn.cost), (2, 1, 5, 6000));
/// assert_eq!(turn.path, [1, 2, 5]);
/// assert_eq!(turn.to_string(), "iteration 2, net 1, sink 5, cost 6000, path 1 2 5");
/// # Ok::<(), arvumnao::Refusal>(())
/// ```
#[derive(Clone, Copy, Debug, PartialEq, Eq)]
pub struct Record<'l> {
    /// The iteration, from 1.
    pub iteration: u32,
    /// The net: the first of its source, for the nets of one source are routed as one.
    pub net: u32,
    /// The sink that the turn joined.
    pub sink: u32,
    /// The path's cost: the sum of its nodes' prices, without the first node, which was in the tree.
    pub cost: u64,
    /// The path's nodes, from the tree to the sink.
    pub path: &'l [u32],
}

/// The records of a log, in order.
#[derive(Clone, Debug)]
pub struct Records<'l> {
    rest: &'l [u32],
}

impl Log {
    /// The words that a run used, which are whole records.
    pub(crate) fn of_run(words: Vec<u32>) -> Log {
        Log { words }
    }

    /// A stored log of a job with these nets. Refused by [`Refusal::Record`] unless it is one or more sound records, each of a net
    /// that is the first of its source, and by [`Refusal::Table`] if there are no sources or more than 512, or one is 4,096 or more.
    pub fn from_words(words: &[u32], nets: &Nets) -> Result<Log, Refusal> {
        needed(raw::write, &nets.source, words)?;
        Ok(Log { words: words.to_vec() })
    }

    /// The log's words, for storing.
    pub fn words(&self) -> &[u32] {
        &self.words
    }

    /// The turns, in order.
    pub fn records(&self) -> Records<'_> {
        Records::of(&self.words)
    }

    /// The routes text: net by net the branches of its records of the latest iteration in which it has any, and a J line for each net
    /// that was joined into another. `nets` are those of the job that was routed; only
    /// their sources are read. Refused as [`Log::from_words`] is, and by [`Refusal::Record`] if the log is empty.
    ///
    /// The routes of a refused run are not usable: wires are overfull, or nets are missing.
    ///
    /// ```
    /// // two nets of source 0
    /// let text = "F,3,2,2,1\nN,0,0,1\nN,1,1,1\nN,2,1,1\nE,0,1\nE,0,2\nS,0,0\nT,0,1\nS,1,0\nT,1,2\n";
    /// let job = arvumnao::Job::read(text.as_bytes())?;
    /// assert_eq!(job.route()?.log.routes(&job.nets)?, "R,1,2\nB,0,0,1\nB,0,0,2\nJ,1,0\n");
    /// # Ok::<(), arvumnao::Refusal>(())
    /// ```
    pub fn routes(&self, nets: &Nets) -> Result<String, Refusal> {
        self.written(raw::write, nets)
    }

    /// The same branches as a picture in the DOT language of Graphviz. Refused as [`Log::routes`] is.
    ///
    /// ```
    /// let text = "F,2,1,1,1\nN,0,0,1\nN,1,1,1\nE,0,1\nS,0,0\nT,0,1\n";
    /// let job = arvumnao::Job::read(text.as_bytes())?;
    /// assert_eq!(job.route()?.log.picture(&job.nets)?, "digraph r {\n0 -> 1 [label=\"0\"];\n}\n");
    /// # Ok::<(), arvumnao::Refusal>(())
    /// ```
    pub fn picture(&self, nets: &Nets) -> Result<String, Refusal> {
        self.written(raw::dot, nets)
    }

    fn written(&self, write: Writer, nets: &Nets) -> Result<String, Refusal> {
        let mut buffer = vec![0; needed(write, &nets.source, &self.words)?];
        let told = out(|out| write(&nets.source, &self.words, &mut buffer, out));
        match raw::refusal(&told) {
            [] => {}
            numbers => return Err(Refusal::unexpected(numbers)),
        }
        let [bytes] = raw::own(&told);
        buffer.truncate(*bytes as usize);
        Ok(buffer.into_iter().map(char::from).collect())
    }
}

/// The library's call that writes a text of a log.
type Writer = fn(&[u16], &[u32], &mut [u8], &mut [u64]) -> u32;

/// The bytes that the text of a log needs: asked with an empty buffer, which is always too short.
fn needed(write: Writer, source: &[u16], words: &[u32]) -> Result<usize, Refusal> {
    let told = out(|out| write(source, words, &mut [], out));
    match *raw::refusal(&told) {
        [11, needed] => Ok(needed as usize),
        [5, 5] => Err(Refusal::Table(TableFault::of_log(source))),
        [10, word] => Err(Refusal::Record { word }),
        ref numbers => Err(Refusal::unexpected(numbers)),
    }
}

impl Record<'_> {
    /// The words that it has in the log.
    pub(crate) fn words(&self) -> u64 {
        6 + self.path.len() as u64
    }
}

impl<'l> Records<'l> {
    /// The records in these words.
    pub(crate) fn of(words: &'l [u32]) -> Records<'l> {
        Records { rest: words }
    }
}

impl AsRef<[u32]> for Log {
    fn as_ref(&self) -> &[u32] {
        &self.words
    }
}

impl<'l> Iterator for Records<'l> {
    type Item = Record<'l>;

    fn next(&mut self) -> Option<Record<'l>> {
        let &[iteration, net, sink, low, high, nodes, ref rest @ ..] = self.rest else { return None };
        let path = rest.get(..nodes as usize)?;
        self.rest = &rest[path.len()..];
        let cost = u64::from(high) << 32 | u64::from(low);
        Some(Record { iteration, net, sink, cost, path })
    }
}

impl<'l> IntoIterator for &'l Log {
    type Item = Record<'l>;
    type IntoIter = Records<'l>;

    fn into_iter(self) -> Records<'l> {
        self.records()
    }
}

impl fmt::Display for Record<'_> {
    fn fmt(&self, f: &mut fmt::Formatter<'_>) -> fmt::Result {
        let Record { iteration, net, sink, cost, path } = self;
        write!(f, "iteration {iteration}, net {net}, sink {sink}, cost {cost}, path")?;
        path.iter().try_for_each(|node| write!(f, " {node}"))
    }
}
