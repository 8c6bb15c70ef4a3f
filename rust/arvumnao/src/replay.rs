//! A log gone through again: what each turn paid for, and where nets crowded after each iteration.

use crate::job::Job;
use crate::log::{Log, Record, Records};
use crate::refusal::Refusal;
use crate::trees::Overfull;
use crate::walk::Walk;

/// What one node of a path cost in its turn.
///
/// The price is history × base × (100 + factor × excess), with the [iteration's](Iteration) factor; in a timed job criticality × delay ×
/// 100 + (10 − criticality) × that, with the [turn's](Turn) criticality.
#[derive(Clone, Copy, Debug, PartialEq, Eq)]
pub struct Step {
    /// The node.
    pub node: u32,
    /// Its history in the turn's iteration.
    pub history: u32,
    /// Its [base cost](crate::kind::base_cost).
    pub base: u32,
    /// By how many nets it would have been over capacity with this one on it.
    pub excess: u32,
    /// Its delay; 0 in a job that isn't timed.
    pub delay: u32,
    /// What it cost.
    pub price: u64,
}

/// A turn gone through again.
#[derive(Clone, Debug, PartialEq, Eq)]
pub struct Turn<'l> {
    /// Its record in the log, whose cost is the sum of the prices.
    pub record: Record<'l>,
    /// The criticality of its sink; none in a job that isn't timed.
    pub criticality: Option<u8>,
    /// The nodes of its path but the first, which was in the tree.
    pub steps: Vec<Step>,
}

/// An iteration gone through again.
#[derive(Clone, Debug, PartialEq, Eq)]
pub struct Iteration<'l> {
    /// The iteration, from 1.
    pub number: u32,
    /// Its factor.
    pub factor: u32,
    /// Each node's history in it.
    pub history: Vec<u32>,
    /// Its turns, in order.
    pub turns: Vec<Turn<'l>>,
    /// How many nets have each node in their tree after it.
    pub users: Vec<u32>,
    /// The nodes over their capacity after it, with their nets.
    pub overfull: Vec<Overfull>,
    /// The base costs of the nodes of all trees after it, summed.
    pub tree_cost: u64,
}

/// The iterations of a log, gone through again one after the other. A record that is no path of its net, or whose cost is not the sum of
/// the prices computed again, ends it with [`Refusal::Replay`]; its iteration is not returned.
#[derive(Clone, Debug)]
pub struct Replay<'l> {
    walk: Walk<'l>,
    rest: Records<'l>,
    /// The place of the next record's first word.
    word: u64,
}

impl Log {
    /// Goes through the log again: factor and histories of each iteration, users and overfull nodes after it, and what each turn paid
    /// for. Prices follow from the job and the log's earlier records alone, and must add up to the cost of each record.
    /// Refused by [`Refusal::Table`] and [`Refusal::TooLarge`] unless the job's tables keep their rules.
    ///
    /// It does not test which nets are due, nor whether a path is a cheapest one.
    ///
    /// ```
    /// let job = arvumnao::Job::read(include_bytes!("../../../examples/job_b.txt"))?;
    /// let log = job.route()?.log;
    /// let iterations = log.replay(&job)?.collect::<Result<Vec<_>, _>>()?;
    /// // after iteration 1 both nets have wire 2, so in iteration 2 its history is 2
    /// assert_eq!((iterations[0].overfull[0].node, &iterations[0].overfull[0].nets[..]), (2, &[0, 1][..]));
    /// assert_eq!((iterations[1].factor, iterations[1].history[2]), (50, 2));
    /// // net 0 takes wire 3, and net 1 pays 2 × 20 × 100 for wire 2 and 1 × 20 × 100 for its sink
    /// let prices: Vec<u64> = iterations[1].turns[1].steps.iter().map(|step| step.price).collect();
    /// assert_eq!(prices, [4000, 2000]);
    /// assert_eq!(iterations[1].turns[1].record.cost, 6000);
    /// # Ok::<(), arvumnao::Refusal>(())
    /// ```
    pub fn replay<'l>(&'l self, job: &'l Job) -> Result<Replay<'l>, Refusal> {
        job.check()?;
        Ok(Replay { walk: Walk::new(job), rest: self.records(), word: 0 })
    }
}

impl<'l> Replay<'l> {
    /// The next turn, if it is one of this iteration.
    fn turn(&mut self, iteration: u32) -> Option<Result<Turn<'l>, Refusal>> {
        let mut rest = self.rest.clone();
        let record = rest.next().filter(|record| record.iteration == iteration)?;
        self.rest = rest;
        let word = self.word;
        self.word += record.words();
        Some(turn(&mut self.walk, record).map_err(|reason| Refusal::Replay { word, reason }))
    }

    /// The iteration whose first record is next.
    fn iteration(&mut self, number: u32) -> Result<Iteration<'l>, Refusal> {
        let mut turns = Vec::new();
        let mut history = Vec::new();
        while let Some(turn) = self.turn(number) {
            turns.push(turn?);
            if turns.len() == 1 {
                history = self.walk.history.clone();
            }
        }
        let Walk { factor, tree_cost, ref users, .. } = self.walk;
        let (users, overfull) = (users.clone(), self.walk.overfull());
        Ok(Iteration { number, factor, history, turns, users, overfull, tree_cost })
    }
}

/// Goes through a record again.
fn turn<'l>(walk: &mut Walk, record: Record<'l>) -> Result<Turn<'l>, String> {
    walk.come_to(&record)?;
    let criticality = walk.criticality(&record);
    let steps: Vec<Step> = record.path.iter().skip(1).map(|node| walk.step(*node, criticality)).collect();
    let cost: u128 = steps.iter().map(|step| u128::from(step.price)).sum();
    if cost != record.cost.into() {
        return Err(format!("its path costs {cost}, and the log has {}", record.cost));
    }
    walk.take(&record);
    Ok(Turn { record, criticality, steps })
}

impl<'l> Iterator for Replay<'l> {
    type Item = Result<Iteration<'l>, Refusal>;

    fn next(&mut self) -> Option<Self::Item> {
        let number = self.rest.clone().next()?.iteration;
        let iteration = self.iteration(number);
        if iteration.is_err() {
            self.rest = Records::of(&[]);
        }
        Some(iteration)
    }
}
