//! Prices, factors, histories and tunings, and the search and a turn alone, aimed or not.

use crate::cases::{Case, Fault};
use crate::show::{answer, line, numbers, refusal, slice};
use plain::{Answer, Tuning, Weighting};

pub fn price(case: &mut Case) -> Result<(), Fault> {
    let [kind, factor, others, capacity, history] = case.numbers("price")?;
    let got = plain::price(kind, factor, others, capacity, history);
    line(case, &[answer(&got)]);
    Ok(())
}

pub fn timed_price(case: &mut Case) -> Result<(), Fault> {
    let [kind, factor, others, capacity, history, delay, criticality] = case.numbers("timed_price")?;
    let got = plain::timed_price(kind, factor, others, capacity, history, delay, criticality);
    line(case, &[answer(&got)]);
    Ok(())
}

fn tuning(first: u32, up: u32, down: u32, step: u32) -> Tuning {
    Tuning { first, up, down, step }
}

/// Whether the tuning keeps its bounds, as 1 or 0.
pub fn sound(case: &mut Case) -> Result<(), Fault> {
    let [first, up, down, step] = case.numbers("tuning")?;
    line(case, &[numbers(&[tuning(first, up, down, step).is_sound() as u64])]);
    Ok(())
}

/// The factor of the iteration after this one: 0 in iteration 1, the first in iteration 2, then grown by up / down. Also for
/// numbers that no job has: a quotient by 0 is 0.
pub fn factor(case: &mut Case) -> Result<(), Fault> {
    let [first, up, down, _, iteration, factor] = case.numbers("factor")?;
    let next = match iteration {
        0 => 0,
        1 => first as u64,
        _ => (factor as u64 * up as u64).checked_div(down as u64).unwrap_or(0).min(65_535),
    };
    line(case, &[numbers(&[next])]);
    Ok(())
}

/// The history after an iteration with so many users, also for numbers that no job has.
pub fn history(case: &mut Case) -> Result<(), Fault> {
    let [_, _, _, step, history, users, capacity] = case.numbers("history")?;
    let overuse = users.saturating_sub(capacity) as u64;
    line(case, &[numbers(&[history as u64 + step as u64 * overuse])]);
    Ok(())
}

pub fn search(case: &mut Case) -> Result<(), Fault> {
    let [factor] = case.numbers("search")?;
    both(case, factor, Weighting::UNTIMED)
}

pub fn timed_search(case: &mut Case) -> Result<(), Fault> {
    let [factor, criticality] = case.numbers("timed_search")?;
    both(case, factor, Weighting { timed: true, criticality })
}

pub fn aimed(case: &mut Case) -> Result<(), Fault> {
    let [factor] = case.numbers("aimed")?;
    aimed_path(case, factor, Weighting::UNTIMED)
}

pub fn timed_aimed(case: &mut Case) -> Result<(), Fault> {
    let [factor, criticality] = case.numbers("timed_aimed")?;
    aimed_path(case, factor, Weighting { timed: true, criticality })
}

/// What a search or a turn alone is lent.
struct Lent {
    kind: Vec<u8>,
    capacity: Vec<u8>,
    first_edge: Vec<u32>,
    edge_target: Vec<u16>,
    delay: Vec<u16>,
    history: Vec<u32>,
    others: Vec<u16>,
    in_tree: Vec<u8>,
    sinks: Vec<u16>,
    work: Vec<u64>,
}

impl Lent {
    /// A timed case has table 9 after table 4.
    fn of(case: &mut Case, timed: bool) -> Result<Lent, Fault> {
        Ok(Lent {
            kind: case.list("kind")?,
            capacity: case.list("capacity")?,
            first_edge: case.list("first_edge")?,
            edge_target: case.list("edge_target")?,
            delay: if timed { case.list("delay")? } else { Vec::new() },
            history: case.list("history")?,
            others: case.list("others")?,
            in_tree: case.list("in_tree")?,
            sinks: case.list("sinks")?,
            work: case.list("work")?,
        })
    }

    fn search(&self, factor: u32, work: &mut [u64]) -> Answer {
        plain::search(
            &self.kind,
            &self.capacity,
            &self.first_edge,
            &self.edge_target,
            factor,
            work,
            &self.history,
            &self.others,
            &self.in_tree,
        )
    }

    fn timed_search(&self, factor: u32, criticality: u32, work: &mut [u64]) -> Answer {
        plain::timed_search(
            &self.kind,
            &self.capacity,
            &self.first_edge,
            &self.edge_target,
            &self.delay,
            factor,
            criticality,
            work,
            &self.history,
            &self.others,
            &self.in_tree,
        )
    }

    fn cheapest_path(&self, factor: u32, weighting: Weighting, work: &mut [u64]) -> Answer {
        plain::cheapest_path(
            &self.kind,
            &self.capacity,
            &self.first_edge,
            &self.edge_target,
            weighting,
            &self.delay,
            factor,
            work,
            &self.history,
            &self.others,
            &self.in_tree,
            &self.sinks,
        )
    }

    /// The turn of the aimed search, with these tables by target.
    fn aimed_path(
        &self,
        first_back: &[u32],
        back_source: &[u16],
        factor: u32,
        weighting: Weighting,
        work: &mut [u64],
    ) -> Answer {
        plain::aimed_path(
            &self.kind,
            &self.capacity,
            &self.first_edge,
            &self.edge_target,
            first_back,
            back_source,
            weighting,
            &self.delay,
            factor,
            work,
            &self.history,
            &self.others,
            &self.in_tree,
            &self.sinks,
        )
    }
}

/// The search and the cheapest path, each on the work slice as the case has it.
fn both(case: &mut Case, factor: u32, weighting: Weighting) -> Result<(), Fault> {
    let lent = Lent::of(case, weighting.timed)?;
    let mut work = lent.work.clone();
    let got = if weighting.timed {
        lent.timed_search(factor, weighting.criticality, &mut work)
    } else {
        lent.search(factor, &mut work)
    };
    line(case, &[" search".into(), answer(&got), slice(&work)]);
    let mut work = lent.work.clone();
    let got = lent.cheapest_path(factor, weighting, &mut work);
    line(case, &[" path".into(), answer(&got), slice(&work)]);
    Ok(())
}

/// The aimed turn, whose case has the tables by target at its end. A refusal has its number too, the nodes expanded.
fn aimed_path(case: &mut Case, factor: u32, weighting: Weighting) -> Result<(), Fault> {
    let lent = Lent::of(case, weighting.timed)?;
    let first_back: Vec<u32> = case.list("first_back")?;
    let back_source: Vec<u16> = case.list("back_source")?;
    let mut work = lent.work.clone();
    let got = lent.aimed_path(&first_back, &back_source, factor, weighting, &mut work);
    line(case, &[" aimed".into(), refusal(&got), numbers(&got.numbers), slice(&work)]);
    Ok(())
}
