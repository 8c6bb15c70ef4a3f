//! Stored logs, with table 5 for the writer: a job's own ones changed, and others.

use job::{Job, Rng};

/// The first net of a net's source.
pub fn first_of(source: &[u16], net: usize) -> usize {
    source.iter().position(|one| *one == source[net]).unwrap_or(net)
}

/// The nets that are joined into another.
pub fn joined(source: &[u16]) -> Vec<usize> {
    (0..source.len()).filter(|net| first_of(source, *net) != *net).collect()
}

/// Whether two nets have one source.
pub fn has_joined(source: &[u16]) -> bool {
    !joined(source).is_empty()
}

/// Whether an earlier net of the net's source has a sink of it.
pub fn repeats_sink(job: &Job, net: usize) -> bool {
    let mut earlier = (0..net).filter(|other| job.source[*other] == job.source[net]);
    earlier.any(|other| job.sinks(other).iter().any(|sink| job.sinks(net).contains(sink)))
}

/// Where the whole records of a log begin, and the end of the last.
pub fn records(log: &[u32]) -> Vec<usize> {
    let mut places = vec![0];
    let mut place = 0;
    while place + 6 <= log.len() && log[place + 5] as usize <= log.len() - place - 6 {
        place += 6 + log[place + 5] as usize;
        places.push(place);
    }
    places
}

/// Iteration and net of each whole record.
fn turns(log: &[u32]) -> Vec<(u32, u32)> {
    let places = records(log);
    places[..places.len() - 1].iter().map(|place| (log[*place], log[place + 1])).collect()
}

/// The iteration of the last whole record, 0 without one.
pub fn last_iteration(log: &[u32]) -> u32 {
    turns(log).last().map_or(0, |turn| turn.0)
}

/// Whether a record's cost is over 32 bits.
pub fn has_long_cost(log: &[u32]) -> bool {
    records(log).iter().any(|place| log.get(place + 4).is_some_and(|high| *high > 0))
}

/// The words of a log's first iterations, so many.
pub fn first_iterations(log: &[u32], count: u32) -> &[u32] {
    let places = records(log);
    let whole = turns(log).iter().take_while(|turn| turn.0 <= count).count();
    &log[..places[whole]]
}

/// Whether some net's latest record is of an iteration before the last record's.
pub fn keeps_tree(log: &[u32]) -> bool {
    let turns = turns(log);
    let last = last_iteration(log);
    turns.iter().any(|(_, net)| turns.iter().all(|turn| turn.1 != *net || turn.0 < last))
}

/// Whether an iteration passes over a net that has earlier records: a net after it has one.
pub fn passes_over(log: &[u32]) -> bool {
    let turns = turns(log);
    (0..turns.len()).any(|place| {
        let (iteration, net) = turns[place];
        let latest = |other: u32| turns[..place].iter().rfind(|turn| turn.1 == other);
        (0..net).any(|other| latest(other).is_some_and(|turn| turn.0 < iteration))
    })
}

/// Whether some net has no record in an iteration, but one before and one after it.
pub fn skips_iteration(log: &[u32]) -> bool {
    let turns = turns(log);
    (1..turns.len()).any(|place| {
        let before = turns[..place].iter().rfind(|turn| turn.1 == turns[place].1);
        before.is_some_and(|turn| turns[place].0 > turn.0 + 1)
    })
}

/// Whether in some iteration a net has a record after one of a higher net, or has two with another's between.
pub fn interleaves(log: &[u32]) -> bool {
    turns(log).windows(2).any(|two| two[0].0 == two[1].0 && two[0].1 > two[1].1)
}

/// Whether two records of one net and iteration have a node in common.
pub fn forks(log: &[u32]) -> bool {
    let places = records(log);
    let path = |place: usize| &log[places[place] + 6..places[place + 1]];
    let turns = turns(log);
    (0..turns.len()).any(|place| {
        (0..place)
            .any(|other| turns[other] == turns[place] && path(other).iter().any(|v| path(place).contains(v)))
    })
}

/// Whether some path of a job's log passes an unjoined sink of its net, which is joined without a turn.
pub fn passes_sink(job: &Job, log: &[u32]) -> bool {
    let places = records(log);
    let mut tree = (0, 0, Vec::new());
    places.windows(2).any(|two| {
        let record = &log[two[0]..two[1]];
        if (tree.0, tree.1) != (record[0], record[1]) {
            tree = (record[0], record[1], Vec::new());
        }
        let source = job.source.get(record[1] as usize);
        let same = (0..job.source.len()).filter(|net| Some(&job.source[*net]) == source);
        let sinks: Vec<u32> = same.flat_map(|net| job.sinks(net)).map(|sink| u32::from(*sink)).collect();
        let path = &record[6..];
        let before = &path[..path.len().saturating_sub(1)];
        let passes = before.iter().any(|node| sinks.contains(node) && !tree.2.contains(node));
        tree.2.extend_from_slice(path);
        passes
    })
}

/// Whether the record at the front of these words is whole, sound by 01, and has a node from a block's node count on.
pub fn lacks(words: &[u32], nodes: usize) -> bool {
    let &[1..=100, 0..512, sink, _, _, length @ 2..=4_096, ref rest @ ..] = words else { return false };
    let path = rest.get(..length as usize).unwrap_or(&[]);
    path.last() == Some(&sink)
        && path.iter().all(|node| *node < 4_096)
        && path.iter().any(|node| *node as usize >= nodes)
}

/// Changes a log: cut, one word damaged, records moved, another net named; or leaves it.
pub fn change_log(rng: &mut Rng, source: &[u16], log: &mut Vec<u32>) {
    match rng.below(11) {
        0..=2 => {}
        3 => log.truncate(rng.below(log.len() + 1)),
        4 => {
            let length = rng.within(1, 8);
            log.extend((0..length).map(|_| rng.below(3) as u32));
        }
        5 => move_record(rng, log),
        6 => name_no_first(rng, source, log),
        _ => damage_log(rng, log),
    }
}

/// One word of one record, with each place in a record about as often.
fn damage_log(rng: &mut Rng, log: &mut [u32]) {
    let places = records(log);
    if places.len() < 2 {
        return;
    }
    let record = rng.below(places.len() - 1);
    let (from, end) = (places[record], places[record + 1]);
    let place = if rng.percent(60) { from + rng.below(6) } else { rng.within(from, end - 1) };
    log[place] = match rng.below(3) {
        0 => log[place].wrapping_add(1),
        1 => log[place].wrapping_sub(1),
        _ => rng.pick(&[
            0,
            1,
            2,
            99,
            100,
            101,
            511,
            512,
            4_095,
            4_096,
            4_097,
            65_536,
            0x7fff_ffff,
            0x8000_0000,
            u32::MAX,
        ]),
    };
}

/// Makes a record one of a net that is joined into another, or of one beyond table 5.
fn name_no_first(rng: &mut Rng, source: &[u16], log: &mut [u32]) {
    let places = records(log);
    if places.len() < 2 {
        return;
    }
    let joined = joined(source);
    let net = if joined.is_empty() || rng.once_in(3) {
        source.len() + rng.pick(&[0, 0, 1, 5])
    } else {
        rng.pick(&joined)
    };
    log[rng.pick(&places[..places.len() - 1]) + 1] = net as u32;
}

/// Puts a record elsewhere or a second time.
fn move_record(rng: &mut Rng, log: &mut Vec<u32>) {
    let places = records(log);
    if places.len() < 2 {
        return;
    }
    let record = rng.below(places.len() - 1);
    let words: Vec<u32> = log[places[record]..places[record + 1]].to_vec();
    let to = rng.pick(&places);
    log.splice(to..to, words);
}

/// Table 5 for such records as `free_log` makes: mostly long enough for all of them, at times with nets of one source.
pub fn free_source(rng: &mut Rng) -> Vec<u16> {
    let nets = rng.pick(&[512, 512, 512, 512, 511, 101, 10, 1]);
    let first = rng.pick(&[0, 1, 1_000, 4_096 - nets]);
    let mut source: Vec<u16> = (first..first + nets).map(|node| node as u16).collect();
    if rng.percent(60) {
        for _ in 0..rng.pick(&[1, 2, 8, 60]) {
            source[rng.below(nets)] = rng.pick(&source);
        }
    }
    source
}

/// Records that no job needs to have, of nets in any order, sound by the writer's rules but for a path of 4,097 now and then.
pub fn free_log(rng: &mut Rng) -> Vec<u32> {
    let mut log = Vec::new();
    let mut iteration = rng.pick(&[1, 1, 2, 50, 88, 99, 100]);
    let nets: &[u32] = rng.pick(&[&[0, 9, 10, 99, 100, 511], &[0, 1, 2], &[3, 7]]);
    for _ in 0..rng.pick(&[1, 2, 4, 6, 12]) {
        let length = if rng.once_in(300) { rng.pick(&[4_095, 4_096, 4_097]) } else { rng.within(2, 5) };
        let path: Vec<u32> = (0..length).map(|_| rng.pick(&[0, 9, 10, 99, 100, 999, 1_000, 4_095])).collect();
        let net = rng.pick(nets);
        log.extend([iteration, net, path[length - 1], rng.draw() as u32, rng.draw() as u32, length as u32]);
        log.extend(path);
        if rng.percent(30) {
            iteration = (iteration + rng.within(1, 9) as u32).min(100);
        }
    }
    log
}
