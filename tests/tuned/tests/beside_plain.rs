//! The tuned router beside the plain one: same outcome, same log, on many small random jobs.

use job::{jobs, Job, Rng, Tuning};
use tuned::{Outcome, Way, WAYS};

const UNWRITTEN: u32 = 0xdead_beef;

/// Some numbers below bound, none twice, in random order.
fn some(draw: &mut Rng, bound: usize, count: usize, without: usize) -> Vec<u16> {
    let mut left: Vec<u16> = (0..bound as u16).filter(|&v| v as usize != without).collect();
    let mut taken = Vec::new();
    for _ in 0..count.min(left.len()) {
        taken.push(left.swap_remove(draw.below(left.len())));
    }
    taken
}

fn random_job(draw: &mut Rng, most_nodes: usize) -> Job {
    let nodes = 2 + draw.below(most_nodes - 1);
    let degree = 1 + draw.below(6);
    // Few kinds make many ties.
    let kinds = [1, 3, 6, 16][draw.below(4)];
    let shift = draw.below(17 - kinds);
    let room = [1, 2, 4, 255][draw.below(4)];
    let kind = (0..nodes).map(|_| (shift + draw.below(kinds)) as u8).collect();
    let capacity = (0..nodes).map(|_| 1 + draw.below(room) as u8).collect();
    let mut job = Job::bare(kind, capacity, [1, 2, 5, 12, 30, 100][draw.below(6)]);
    // Now and then edges are too few for every sink to have a path.
    let least = if draw.below(4) == 0 { 0 } else { degree };
    for u in 0..nodes {
        let count = least + draw.below(degree + 1);
        let mut row = some(draw, nodes, count, u);
        row.sort();
        job.add_row(&row);
    }
    let mut pins = some(draw, nodes, nodes, nodes);
    let sinks = pins.split_off(draw.within(1, nodes - 1));
    if draw.below(2) == 0 {
        add_nets(draw, &pins, &sinks, &mut job);
    } else {
        add_apart_nets(draw, &pins, &sinks, &mut job);
    }
    add_pin_kinds(draw, &mut job);
    job
}

/// Kind 0 or 2 for sources, 1 or 3 for sinks.
fn add_pin_kinds(draw: &mut Rng, job: &mut Job) {
    for &source in &job.source {
        job.kind[source as usize] = draw.pick(&[0, 2]);
    }
    for &sink in &job.sink {
        job.kind[sink as usize] = draw.pick(&[1, 3]);
    }
}

/// The plain tuning, or one of all allowed.
fn random_tuning(draw: &mut Rng) -> Tuning {
    if draw.once_in(2) {
        return Tuning::PLAIN;
    }
    let first = [0, 1, 50, 1_000, draw.below(1_001)][draw.below(5)] as u32;
    let down = draw.within(1, 4);
    let up = draw.within(down, 8) as u32;
    Tuning { first, up, down: down as u32, step: draw.within(1, 2) as u32 }
}

/// Nets with pins in common: most of them never settle.
fn add_nets(draw: &mut Rng, sources: &[u16], sinks: &[u16], job: &mut Job) {
    let most = 1 + draw.below(6);
    for _ in 0..1 + draw.below(8) {
        let source = draw.pick(sources);
        let count = 1 + draw.below(most);
        let list: Vec<u16> =
            some(draw, sinks.len(), count, sinks.len()).iter().map(|&s| sinks[s as usize]).collect();
        job.add_net(source, &list);
    }
}

/// Nets without a pin in common: many settle after some iterations.
fn add_apart_nets(draw: &mut Rng, sources: &[u16], sinks: &[u16], job: &mut Job) {
    let nets = 1 + draw.below((sources.len() + sinks.len()) / 3 + 1);
    let mut sinks = sinks.iter().copied();
    for &source in &sources[..nets.min(sources.len())] {
        let list: Vec<u16> = sinks.by_ref().take(1 + draw.below(3)).collect();
        if list.is_empty() {
            break;
        }
        job.add_net(source, &list);
    }
}

/// Sources, two to four layers of wires, pins, sinks; numbered at random. Narrow, so that nets compete.
fn layered_job(draw: &mut Rng) -> Job {
    let nets = 2 + draw.below(5);
    let wires = nets + draw.below(3);
    let mut width = vec![nets];
    width.extend(vec![wires; 2 + draw.below(3)]);
    width.extend([2 * nets, 2 * nets]);
    let nodes: usize = width.iter().sum();
    let number = some(draw, nodes, nodes, nodes);
    let mut job = Job::bare(vec![1; nodes], vec![1; nodes], [3, 10, 40, 100][draw.below(4)]);
    add_layers(draw, &width, &number, &mut job);
    add_layered_nets(draw, &number[..nets], &number[nodes - 2 * nets..], &mut job);
    // Reachable sinks only, or else nearly every job would be refused.
    keep_reachable(&mut job);
    add_pin_kinds(draw, &mut job);
    job
}

/// Kinds and edges: each layer leads to the next one, the sinks nowhere.
fn add_layers(draw: &mut Rng, width: &[usize], number: &[u16], job: &mut Job) {
    let mut rows = vec![Vec::new(); number.len()];
    let mut rest = number;
    for (layer, pair) in width.windows(2).enumerate() {
        let (own, after) = rest.split_at(pair[0]);
        let pins = layer + 2 == width.len();
        for &u in own {
            job.kind[u as usize] = if pins { 3 } else { 4 + draw.below(2) as u8 };
            rows[u as usize] = layer_row(draw, u, own, &after[..pair[1]], pins);
        }
        rest = after;
    }
    for mut row in rows {
        row.sort();
        job.add_row(&row);
    }
}

/// A pin leads to one sink; the others to one to three nodes of the next layer and at times along their own.
fn layer_row(draw: &mut Rng, u: u16, own: &[u16], next: &[u16], pins: bool) -> Vec<u16> {
    let count = if pins { 1 } else { 1 + draw.below(3) };
    let mut row: Vec<u16> =
        some(draw, next.len(), count, next.len()).iter().map(|&v| next[v as usize]).collect();
    let beside = own[draw.below(own.len())];
    if !pins && beside != u && draw.below(3) == 0 {
        row.push(beside);
    }
    row
}

/// One or two sinks a net, no sink twice.
fn add_layered_nets(draw: &mut Rng, sources: &[u16], sinks: &[u16], job: &mut Job) {
    let order = some(draw, sinks.len(), sinks.len(), sinks.len());
    let mut order = order.iter().map(|&s| sinks[s as usize]);
    for &source in sources {
        let sinks: Vec<u16> = order.by_ref().take(1 + draw.below(2)).collect();
        job.add_net(source, &sinks);
    }
}

fn reached(job: &Job, source: u16) -> Vec<bool> {
    let mut seen = vec![false; job.kind.len()];
    let mut left = vec![source];
    while let Some(u) = left.pop() {
        if !std::mem::replace(&mut seen[u as usize], true) {
            left.extend(job.row(u as usize));
        }
    }
    seen
}

/// Leaves out sinks without a path, then nets without sinks. If none is left, all stay.
fn keep_reachable(job: &mut Job) {
    let (mut source, mut first_sink, mut sink) = (Vec::new(), vec![0], Vec::new());
    for (net, &s) in job.source.iter().enumerate() {
        let seen = reached(job, s);
        let before = sink.len();
        sink.extend(job.sinks(net).iter().filter(|&&v| seen[v as usize]));
        if sink.len() > before {
            source.push(s);
            first_sink.push(sink.len() as u32);
        }
    }
    if !source.is_empty() {
        (job.source, job.first_sink, job.sink) = (source, first_sink, sink);
    }
}

fn run_tuned(way: Way, job: &Job, words: usize) -> (Outcome, Vec<u32>) {
    let mut log = vec![UNWRITTEN; words];
    let outcome = tuned::route(
        way,
        &job.kind,
        &job.capacity,
        &job.first_edge,
        &job.edge_target,
        &job.source,
        &job.first_sink,
        &job.sink,
        job.terms(),
        &mut log,
    );
    (outcome, log)
}

fn run_plain(job: &Job, words: usize) -> (Outcome, Vec<u32>) {
    let mut log = vec![UNWRITTEN; words];
    let mut work = vec![0; 8 * job.kind.len()];
    let answer = plain::route(
        &job.kind,
        &job.capacity,
        &job.first_edge,
        &job.edge_target,
        &job.source,
        &job.first_sink,
        &job.sink,
        &job.delay,
        &job.criticality,
        &job.terms(),
        &mut work,
        &mut log,
    );
    let (iteration, turns, words) = (answer.numbers[0], answer.numbers[1], answer.numbers[2]);
    (Outcome { refusal: answer.refusal, iteration, turns, words }, log)
}

/// Sets the three tuned routers beside the plain one. Gives the outcome.
fn compare(job: &Job, words: usize, seed: u64) -> Outcome {
    let (wanted, wanted_log) = run_plain(job, words);
    for way in WAYS {
        let (outcome, log) = run_tuned(way, job, words);
        assert_eq!(outcome, wanted, "outcome, {way:?}, seed {seed}");
        assert!(log == wanted_log, "log, {way:?}, seed {seed}");
    }
    wanted
}

#[test]
fn many_random_jobs() {
    // How often each outcome came: accepted, 7, 8, 9.
    let mut seen = [0; 4];
    // Of those accepted after iteration 2, how many under each rule.
    let mut late = [0; 2];
    for seed in 0..4_000 {
        let mut draw = Rng::new(seed);
        let most_nodes = if seed % 20 == 0 { 120 } else { 24 };
        let mut job = if seed % 3 == 0 { layered_job(&mut draw) } else { random_job(&mut draw, most_nodes) };
        job.tuning = random_tuning(&mut draw);
        (job.rule, job.until) = (1 + draw.below(2) as u32, jobs::until(&mut draw));
        let outcome = compare(&job, 60_000, seed);
        seen[outcome.refusal.first().map_or(0, |&r| r as usize - 6)] += 1;
        late[job.rule as usize - 1] += (outcome.refusal.is_empty() && outcome.iteration > 2) as u32;
        // Logs that are exactly long enough, one word short, or cut anywhere.
        let used = outcome.words as usize;
        if used > 0 {
            compare(&job, used, seed);
            compare(&job, used - 1, seed);
            let cut = draw.below(used);
            seen[2] += (compare(&job, cut, seed).refusal.first() == Some(&8)) as u32;
        }
    }
    println!(
        "accepted {}, 7: {}, 8: {}, 9: {}; accepted after iteration 2 by either rule: {late:?}",
        seen[0], seen[1], seen[2], seen[3]
    );
    assert!(seen.iter().all(|&count| count > 100) && late.iter().all(|&count| count > 25));
}

#[test]
fn job_b() {
    let rows = [vec![2, 3], vec![2], vec![4, 5], vec![4], vec![], vec![]];
    let job = Job::new(vec![0, 0, 4, 5, 1, 1], vec![1; 6], &rows, &[(0, [4]), (1, [5])], 2);
    let wanted = [
        1, 0, 4, 4000, 0, 3, 0, 2, 4, 1, 1, 5, 4000, 0, 3, 1, 2, 5, 2, 0, 4, 6000, 0, 3, 0, 3, 4, 2, 1, 5,
        6000, 0, 3, 1, 2, 5,
    ];
    for way in WAYS {
        let (outcome, log) = run_tuned(way, &job, 36);
        assert_eq!(outcome, Outcome { refusal: vec![], iteration: 2, turns: 4, words: 36 });
        assert_eq!(log, wanted);
        let (outcome, _) = run_tuned(way, &job, 35);
        assert_eq!(outcome, Outcome { refusal: vec![8, 2, 3], iteration: 2, turns: 3, words: 27 });
    }
}

/// 512 nets share a chain until distances pass 2^52, where heap keys get longer.
#[test]
fn long_keys() {
    let (chain, ends, nets) = (80, 20, 512);
    let sources = chain + ends;
    let mut kind = vec![15; chain];
    kind.extend((0..ends).map(|end| 1 + 2 * (end % 2) as u8));
    kind.resize(sources + nets, 0);
    let mut rows: Vec<Vec<u16>> = (1..chain as u16).map(|v| vec![v]).collect();
    // The last chain node leads to every end, each source to the first.
    rows.push((chain as u16..sources as u16).collect());
    rows.resize(sources, Vec::new());
    rows.resize(sources + nets, vec![0]);
    let list: Vec<_> = (0..nets).map(|net| ((sources + net) as u16, [(chain + net % ends) as u16])).collect();
    let job = Job::new(kind, vec![1; sources + nets], &rows, &list, 40);
    let outcome = compare(&job, 2_000_000, 0);
    assert_eq!(outcome.refusal[0], 9);
    let (_, log) = run_tuned(Way::Heap, &job, outcome.words as usize);
    let record = 6 + chain + 2;
    assert!(log.len() % record == 0 && log[log.len() - record + 4] >= 1 << 20);
}

/// Nets of one source, a sink repeated across them, and one without a path at a place of the joined net.
#[test]
fn joined_nets() {
    let rows = [vec![2, 3], vec![2, 3], vec![4, 5, 6], vec![4, 5, 6], vec![], vec![], vec![], vec![]];
    let kind = vec![0, 2, 4, 5, 1, 3, 1, 1];
    let nets: [(u16, &[u16]); 4] = [(0, &[5, 4]), (1, &[6]), (0, &[4, 6]), (0, &[5])];
    let job = Job::new(kind.clone(), vec![1; 8], &rows, &nets, 9);
    assert_eq!(compare(&job, 500, 0).refusal.first(), Some(&9));
    let cut: [(u16, &[u16]); 3] = [(0, &[5, 4]), (1, &[7]), (0, &[4, 7])];
    let job = Job::new(kind, vec![1; 8], &rows, &cut, 9);
    assert_eq!(compare(&job, 500, 0).refusal, [7, 0, 2]);
}
