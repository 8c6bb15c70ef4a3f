//! Several jobs at a time. Jobs share nothing, so each runs in one thread from beginning to end.

use std::collections::BTreeMap;
use std::num::NonZeroUsize;
use std::sync::atomic::{AtomicUsize, Ordering};
use std::sync::mpsc;
use std::thread;

/// How many threads `-j` asks for: 0 is as many as the machine has cores.
pub fn workers(asked: Option<u32>) -> usize {
    match asked {
        None => 1,
        Some(0) => thread::available_parallelism().map_or(1, NonZeroUsize::get),
        Some(number) => number as usize,
    }
}

/// Does the work for each place below `count`, at most `workers` at a time, and passes the results to `take` in order, each as soon as those
/// before it are there. If `take` fails, no further work is begun.
pub fn side_by_side<T: Send, E>(
    count: usize,
    workers: usize,
    work: impl Fn(usize) -> T + Sync,
    mut take: impl FnMut(usize, T) -> Result<(), E>,
) -> Result<(), E> {
    let next = AtomicUsize::new(0);
    let (send, receive) = mpsc::channel();
    thread::scope(|scope| {
        for _ in 0..workers.min(count) {
            let (send, next, work) = (send.clone(), &next, &work);
            scope.spawn(move || loop {
                let place = next.fetch_add(1, Ordering::SeqCst);
                if place >= count || send.send((place, work(place))).is_err() {
                    return;
                }
            });
        }
        drop(send);
        let taken = in_order(receive.iter(), &mut take);
        next.store(count, Ordering::SeqCst);
        taken
    })
}

/// Takes results that come in any order, and passes them on by their places.
fn in_order<T, E>(
    came: impl Iterator<Item = (usize, T)>,
    mut take: impl FnMut(usize, T) -> Result<(), E>,
) -> Result<(), E> {
    let mut early = BTreeMap::new();
    let mut due = 0;
    for (place, result) in came {
        early.insert(place, result);
        while let Some(result) = early.remove(&due) {
            take(due, result)?;
            due += 1;
        }
    }
    Ok(())
}

#[cfg(test)]
mod tests {
    use super::*;
    use std::time::Duration;

    #[test]
    fn results_come_in_order_whatever_takes_longest() {
        let work = |place: usize| {
            thread::sleep(Duration::from_millis((place as u64 * 7) % 5));
            place * place
        };
        let mut seen = Vec::new();
        side_by_side(40, 4, work, |place, result| {
            assert_eq!(result, place * place);
            seen.push(place);
            Ok::<(), ()>(())
        })
        .unwrap();
        assert_eq!(seen, (0..40).collect::<Vec<_>>());
    }

    #[test]
    fn a_failure_ends_it() {
        let begun = AtomicUsize::new(0);
        let work = |_| begun.fetch_add(1, Ordering::SeqCst);
        let take = |place, _| if place == 3 { Err("enough") } else { Ok(()) };
        assert_eq!(side_by_side(1_000_000, 2, work, take), Err("enough"));
        assert!(begun.load(Ordering::SeqCst) < 1_000_000);
    }
}
