//! Texts from a seed: sound, damaged, and about the program's bounds.

use job::{jobs, texts, Job, Rng};
use plain::sizes::{BYTES, EDGES, NODES, SINKS};

/// The text of a seed.
pub fn text(rng: &mut Rng) -> Vec<u8> {
    match rng.below(100) {
        0..=2 => texts::odd(rng),
        3..=6 => about_bounds(rng),
        7..=10 => texts::text(&jobs::endless(rng)),
        11..=39 => sound(rng),
        40..=49 => {
            let job = jobs::job(rng);
            texts::changed(rng, &job)
        }
        _ => {
            let job = jobs::small(rng);
            texts::changed(rng, &job)
        }
    }
}

fn sound(rng: &mut Rng) -> Vec<u8> {
    let job = jobs::job(rng);
    texts::some_text(rng, &job)
}

/// The text of a job that is timed in part of the cases.
fn of(rng: &mut Rng, make: impl Fn(&mut Rng) -> Job) -> Vec<u8> {
    let job = make(rng);
    texts::text(&jobs::perhaps_timed(rng, job))
}

/// About as many nodes, edges, sinks or bytes as the program takes.
fn about_bounds(rng: &mut Rng) -> Vec<u8> {
    match rng.below(4) {
        0 => of(rng, |rng| jobs::line(rng.within(NODES - 4, NODES + 4))),
        1 => of(rng, |rng| jobs::full(92, rng.within(EDGES - 4, EDGES + 4))),
        2 => of(rng, |rng| {
            let sinks = rng.pick(&[512, 1_024, 2_047, 2_048, 2_049, SINKS, SINKS + 1]);
            jobs::many_sinks(rng, sinks)
        }),
        _ => {
            let mut text = sound(rng);
            text.resize(rng.within(BYTES - 2, BYTES + 2), b'\n');
            text
        }
    }
}
