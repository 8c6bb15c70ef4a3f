//! Ends of the library's own calls that must be alike, whatever plain's are.

use crate::compare::{of_library, After, Case};
use crate::logs;

/// What is wrong between the end of a call and that of another call of the library: the router's with the plain search, its straight run,
/// the same log added to no counts.
pub fn check(case: &Case, after: &After) -> Result<(), String> {
    if let Some(plain) = unaimed(case) {
        alike("an aimed call doesn't end as the plain one", after, &plain)?;
    }
    if let Some(straight) = straight(case) {
        alike("a resume from the job's own log doesn't end as the straight run", after, &straight)?;
    }
    added(case, after)
}

/// The library's end of a call of the router, changed.
fn changed(case: &Case, change: impl Fn(&mut Option<u64>, &mut bool)) -> After {
    let mut other = case.clone();
    if let Case::Route { used, aimed, .. } = &mut other {
        change(used, aimed);
    }
    of_library(&other)
}

/// The end of an aimed call's like with the plain search.
fn unaimed(case: &Case) -> Option<After> {
    matches!(case, Case::Route { aimed: true, .. }).then(|| changed(case, |_, aimed| *aimed = false))
}

/// The end of the straight run in a resume's log, where the words lent are that run's first iterations, whole, and it goes on after them.
pub fn straight(case: &Case) -> Option<After> {
    let Case::Route { used: Some(used), log: lent, .. } = case else { return None };
    let lent = lent.get(..usize::try_from(*used).ok()?)?;
    let straight = changed(case, |used, _| *used = None);
    let Case::Route { log, .. } = &straight.case else { return None };
    let (last, words) = (logs::last_iteration(lent), &log[..straight.answer.numbers[2] as usize]);
    let own = last > 0 && logs::first_iterations(words, last) == lent;
    // a straight run that ends with these words has no room for more, or doesn't go on
    let goes_on = match straight.answer.refusal[..] {
        [8, iteration, _] => iteration > u64::from(last),
        _ => words.len() > lent.len(),
    };
    (own && goes_on).then_some(straight)
}

/// Refusal, iteration, turns, words, and every slice are the same.
fn alike(message: &str, one: &After, other: &After) -> Result<(), String> {
    let ends = [one, other].map(|after| {
        let Case::Route { work, log, .. } = &after.case else { return None };
        Some((&after.answer.refusal, &after.answer.numbers[..3], work, log))
    });
    if ends[0] == ends[1] {
        return Ok(());
    }
    Err(format!("{message}: {:?}\n  the other's: {:?}", one.answer, other.answer))
}

/// A log adds to counts what it adds to none, so that the order of logs makes no difference.
fn added(case: &Case, after: &After) -> Result<(), String> {
    let (Case::AddUses { counts, .. }, Case::AddUses { counts: grown, .. }) = (case, &after.case) else {
        return Ok(());
    };
    if after.answer.numbers.is_empty() || !after.answer.refusal.is_empty() {
        return Ok(());
    }
    let mut alone = case.clone();
    if let Case::AddUses { counts, logs, .. } = &mut alone {
        counts.fill(0);
        *logs = 0;
    }
    let Case::AddUses { counts: uses, .. } = of_library(&alone).case else { return Ok(()) };
    if (0..counts.len()).all(|kind| grown[kind] == counts[kind] + uses[kind]) {
        return Ok(());
    }
    Err(format!("a log adds {uses:?} to no counts, and makes {grown:?} of {counts:?}"))
}
