//! The use of wires over many jobs of one block.

use crate::job::{Block, NETS};
use crate::refusal::Refusal;
use crate::{kind, out, raw};

/// The most logs that counts may have.
const LOGS: u64 = 65_535;

/// How much the nodes of one block are used, kind by kind, over the logs of many jobs. The default has no logs.
///
/// ```
/// use arvumnao::{kind, Job, UseCounts};
///
/// let job = Job::read(include_bytes!("../../../examples/job_b.txt"))?;
/// let log = job.route()?.log; // the final trees are 0, 3, 4 and 1, 2, 5
/// let mut counts = UseCounts::default();
/// counts.add(&job.block, &log)?;
/// counts.add(&job.block, &log)?;
/// assert_eq!((counts.logs, counts.uses[usize::from(kind::wire(1))]), (2, 2));
/// assert!(counts.text(&job.block)?.starts_with("U,0,4,4\nU,1,4,4\nU,2,0,0\n"));
/// # Ok::<(), arvumnao::Refusal>(())
/// ```
#[derive(Clone, Debug, PartialEq, Eq)]
pub struct UseCounts {
    /// For each [kind] the sum, over all logs added and all nodes of the kind, of the nets whose final tree has the node.
    pub uses: [u64; raw::COUNTS],
    /// How many logs were added, at most 65,535.
    pub logs: u64,
}

impl Default for UseCounts {
    fn default() -> UseCounts {
        UseCounts { uses: [0; raw::COUNTS], logs: 0 }
    }
}

impl UseCounts {
    /// Adds a log, of a run or stored. Refused by [`Refusal::Table`] for tables 1 to 4, by [`Refusal::Number`] if uses or logs exceed
    /// their bounds, by [`Refusal::Record`] if the log is unsound or has a node that the block lacks, and by [`Refusal::CountsFull`].
    /// A refused log adds nothing. The order of the logs makes no difference.
    pub fn add(&mut self, block: &Block, log: impl AsRef<[u32]>) -> Result<(), Refusal> {
        let told = out(|out| {
            raw::uses_add(
                &block.kind,
                &block.capacity,
                &block.first_edge,
                &block.edge_target,
                &mut self.uses,
                self.logs,
                log.as_ref(),
                out,
            )
        });
        self.unless_refused(block, raw::refusal(&told))?;
        let [logs] = raw::own(&told);
        self.logs = *logs;
        Ok(())
    }

    /// Adds the counts of other logs of the same block, entry by entry: the sum of two parts' counts is the counts of both. So parts may
    /// be counted at the same time. Refused by [`Refusal::CountsFull`] if both together have more logs than counts may have; then nothing
    /// is added.
    ///
    /// ```
    /// use arvumnao::{Job, UseCounts};
    ///
    /// let job = Job::read(include_bytes!("../../../examples/job_b.txt"))?;
    /// let log = job.route()?.log;
    /// let (mut part, mut both) = (UseCounts::default(), UseCounts::default());
    /// part.add(&job.block, &log)?;
    /// both.add(&job.block, &log)?;
    /// both.add(&job.block, &log)?;
    /// let other = part.clone();
    /// part.merge(&other)?;
    /// assert_eq!(part, both);
    /// # Ok::<(), arvumnao::Refusal>(())
    /// ```
    pub fn merge(&mut self, other: &UseCounts) -> Result<(), Refusal> {
        let logs = self.logs.saturating_add(other.logs);
        if logs > LOGS {
            return Err(Refusal::CountsFull { logs: LOGS });
        }
        self.logs = logs;
        self.uses.iter_mut().zip(other.uses).for_each(|(uses, more)| *uses = uses.saturating_add(more));
        Ok(())
    }

    /// For each kind from 0 to 53 a line `U,kind,uses,capacity`, where capacity is that of all nodes of the kind times the number of
    /// logs. Refused by [`Refusal::Table`] and [`Refusal::Number`], as [`UseCounts::add`] is.
    pub fn text(&self, block: &Block) -> Result<String, Refusal> {
        let mut buffer = [0; raw::USES_BYTES];
        let told = out(|out| {
            raw::uses_write(
                &block.kind,
                &block.capacity,
                &block.first_edge,
                &block.edge_target,
                &self.uses,
                self.logs,
                &mut buffer,
                out,
            )
        });
        self.unless_refused(block, raw::refusal(&told))?;
        let [bytes] = raw::own(&told);
        Ok(buffer.into_iter().take(*bytes as usize).map(char::from).collect())
    }

    /// The refusal of these numbers, if there are any.
    fn unless_refused(&self, block: &Block, numbers: &[u64]) -> Result<(), Refusal> {
        Err(match *numbers {
            [] => return Ok(()),
            [5, table] => block.faulty(table),
            [13, place] => Refusal::Number { place, reason: self.too_many(block, place) },
            [10, word] => Refusal::Record { word },
            [16, logs] => Refusal::CountsFull { logs },
            _ => Refusal::unexpected(numbers),
        })
    }

    /// Why the logs, or the uses of a kind, are too many.
    fn too_many(&self, block: &Block, place: u64) -> String {
        let Some(uses) = self.uses.get(place as usize) else {
            return format!("counts of {} logs: they may be of at most {LOGS}", self.logs);
        };
        let nodes = block.kind.iter().filter(|kind| u64::from(**kind) == place).count();
        let most = NETS as u64 * self.logs * nodes as u64;
        let name = kind::name(place as u8);
        format!("kind {place}, {name}: {uses} uses, where {} logs have at most {most}", self.logs)
    }
}
