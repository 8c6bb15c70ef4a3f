//! Tables that break a rule.

use job::{jobs, Job, Rng, Tuning};

/// Damages a job in one way, at times in two or three.
pub fn damage(rng: &mut Rng, job: &mut Job) {
    let times = rng.pick(&[1, 1, 1, 1, 2, 3]);
    for _ in 0..times {
        match rng.below(if job.is_timed() { 19 } else { 13 }) {
            0..=3 => one_of_graph(rng, job),
            4 => sources(rng, job),
            5 => firsts(rng, &mut job.first_sink),
            6 => sinks(rng, job),
            7 => tuning(rng, &mut job.tuning),
            8 | 9 => pin(rng, job),
            12 => job.until = rng.pick(&[0, 100, 101, 256, 257, 65_537, u32::MAX]),
            13 | 14 => delays(rng, job),
            15 | 16 => criticalities(rng, job),
            17 => too_large(rng, job),
            18 => job.timed = rng.pick(&[0, 2, 256, 65_536, u32::MAX]),
            10 => job.rule = rng.pick(&[0, 3, 4, 256, 257, 258, 65_537, 65_538, u32::MAX]),
            _ => job.limit = rng.pick(&[0, 101, 102, 256, 257, 65_536, 65_537, u32::MAX]),
        }
    }
}

/// Damages tables 1 to 4 only.
pub fn damage_graph(rng: &mut Rng, job: &mut Job) {
    one_of_graph(rng, job);
    if rng.once_in(4) {
        one_of_graph(rng, job);
    }
}

fn one_of_graph(rng: &mut Rng, job: &mut Job) {
    match rng.below(4) {
        0 => kinds(rng, job),
        1 => capacities(rng, job),
        2 => firsts(rng, &mut job.first_edge),
        _ => targets(rng, job),
    }
}

/// One entry too many or too few, or none at all.
fn length<T: Copy>(rng: &mut Rng, table: &mut Vec<T>, more: T) {
    match rng.below(5) {
        0 | 1 => table.push(more),
        2 | 3 => drop(table.pop()),
        _ => table.clear(),
    }
}

/// Puts a value at a random place.
fn put<T>(rng: &mut Rng, table: &mut [T], value: T) {
    if !table.is_empty() {
        let place = rng.below(table.len());
        table[place] = value;
    }
}

/// Puts the number of a node that is not there.
fn put_no_node(rng: &mut Rng, table: &mut [u16], nodes: u16) {
    let value = rng.pick(&[nodes, nodes, nodes.wrapping_add(1), 4_096, u16::MAX]);
    put(rng, table, value);
}

fn kinds(rng: &mut Rng, job: &mut Job) {
    if rng.once_in(400) {
        too_many_nodes(rng, job);
    } else if rng.percent(40) {
        length(rng, &mut job.kind, 4);
    } else {
        let code = rng.pick(&[54, 55, 100, 128, 255]);
        put(rng, &mut job.kind, code);
    }
}

/// 4,097 nodes, or more than 65,536.
fn too_many_nodes(rng: &mut Rng, job: &mut Job) {
    let nodes = rng.pick(&[4_097, 4_098, 65_537]);
    let last = job.edge_target.len() as u32;
    job.kind.resize(nodes, 4);
    job.capacity.resize(nodes, 1);
    job.first_edge.resize(nodes + 1, last);
}

fn capacities(rng: &mut Rng, job: &mut Job) {
    if rng.percent(50) {
        length(rng, &mut job.capacity, 1);
    } else {
        put(rng, &mut job.capacity, 0);
    }
}

/// Table 9: wrong length or a delay beyond its bounds.
pub fn delays(rng: &mut Rng, job: &mut Job) {
    if rng.percent(50) {
        length(rng, &mut job.delay, 0);
    } else {
        let delay = rng.pick(&[1_001, 1_002, 32_768, u16::MAX]);
        put(rng, &mut job.delay, delay);
    }
}

/// Table 10: wrong length or a criticality beyond its bounds.
fn criticalities(rng: &mut Rng, job: &mut Job) {
    if rng.percent(50) {
        length(rng, &mut job.criticality, 0);
    } else {
        let criticality = rng.pick(&[10, 11, 100, 128, 255]);
        put(rng, &mut job.criticality, criticality);
    }
}

/// More nodes or a higher limit than a timed job may have, or both; at times just as many.
fn too_large(rng: &mut Rng, job: &mut Job) {
    if rng.percent(60) {
        let nodes = rng.pick(&[1_024, 1_025, 1_025, 1_026, 4_096]);
        let last = job.edge_target.len() as u32;
        job.kind.resize(nodes, 4);
        job.capacity.resize(nodes, 1);
        job.first_edge.resize(nodes + 1, last);
        job.delay.resize(nodes, 1_000);
    }
    if rng.percent(60) {
        job.limit = rng.pick(&[40, 41, 42, 99, 100]);
    }
}

/// A first place list: wrong length, start, order or end.
fn firsts(rng: &mut Rng, first: &mut Vec<u32>) {
    let last = first.last().copied().unwrap_or(0);
    match rng.below(7) {
        0 => length(rng, first, last),
        1 => *first = [0, 1, last].repeat(rng.within(0, 2)),
        2 if !first.is_empty() => first[0] = rng.pick(&[1, last, u32::MAX]),
        3 if first.len() > 2 => fall(rng, first),
        4 if !first.is_empty() => {
            *first.last_mut().unwrap() = rng.pick(&[last.wrapping_sub(1), last + 1, 0, u32::MAX])
        }
        5 if first.len() > 1 => {
            let place = rng.within(1, first.len() - 1);
            first[place] = first[place - 1];
        }
        _ => {
            let value = rng.pick(&[0, 1, last.wrapping_add(1), 32_768, 65_536, 0x8000_0000, u32::MAX]);
            put(rng, first, value);
        }
    }
}

/// Swaps neighbours, or puts one entry below the one before it.
fn fall(rng: &mut Rng, first: &mut [u32]) {
    let place = rng.within(1, first.len() - 1);
    if rng.percent(50) {
        first.swap(place - 1, place);
    } else {
        first[place] = first[place - 1].wrapping_sub(1);
    }
}

fn targets(rng: &mut Rng, job: &mut Job) {
    let nodes = job.kind.len() as u16;
    match rng.below(8) {
        0 | 1 => put_no_node(rng, &mut job.edge_target, nodes),
        2 => equal_neighbours(rng, &mut job.edge_target),
        3 => swap_neighbours(rng, &mut job.edge_target),
        4 | 5 => to_itself(rng, job),
        6 => length(rng, &mut job.edge_target, 0),
        _ if rng.once_in(20) => too_many_edges(rng, job),
        _ => {
            let value = rng.below(nodes as usize + 1) as u16;
            put(rng, &mut job.edge_target, value);
        }
    }
}

fn equal_neighbours(rng: &mut Rng, table: &mut [u16]) {
    if table.len() > 1 {
        let place = rng.within(1, table.len() - 1);
        table[place] = table[place - 1];
    }
}

fn swap_neighbours(rng: &mut Rng, table: &mut [u16]) {
    if table.len() > 1 {
        let place = rng.within(1, table.len() - 1);
        table.swap(place - 1, place);
    }
}

/// An edge to its own node; in order, where there is one alone in its row.
fn to_itself(rng: &mut Rng, job: &mut Job) {
    if job.kind.is_empty() || job.first_edge.len() <= job.kind.len() {
        return;
    }
    let node = rng.below(job.kind.len());
    let (from, end) = (job.first_edge[node] as usize, job.first_edge[node + 1] as usize);
    if from >= end || end > job.edge_target.len() {
        return;
    }
    let place = (from..end).find(|place| job.edge_target[*place] as usize > node).unwrap_or(end - 1);
    job.edge_target[place] = node as u16;
}

/// More than 32,768 edges, with which table 3 agrees or not.
fn too_many_edges(rng: &mut Rng, job: &mut Job) {
    if rng.percent(50) {
        let full = jobs::full(182, rng.pick(&[32_769, 32_770, 32_942]));
        let old = std::mem::replace(job, full);
        job.set_terms(old.terms());
        (job.source, job.first_sink, job.sink) = (old.source, old.first_sink, old.sink);
        return;
    }
    let edges = rng.pick(&[32_768, 32_769, 65_536]);
    job.edge_target.resize(edges, 0);
    if rng.percent(80) {
        if let Some(last) = job.first_edge.last_mut() {
            *last = edges as u32;
        }
    }
}

/// One number of the tuning beyond its bounds, some by a power of two.
fn tuning(rng: &mut Rng, tuning: &mut Tuning) {
    match rng.below(5) {
        0 => tuning.first = rng.pick(&[1_001, 1_002, 65_536, 65_586, u32::MAX]),
        1 => tuning.up = rng.pick(&[0, 9, 10, 256, 259, 65_539, u32::MAX]),
        2 => tuning.down = rng.pick(&[0, 5, 8, 256, 258, 65_538, u32::MAX]),
        3 => tuning.step = rng.pick(&[0, 3, 4, 256, 257, 65_537, u32::MAX]),
        _ => below_down(rng, tuning),
    }
}

/// Growth up below down, both else allowed.
fn below_down(rng: &mut Rng, tuning: &mut Tuning) {
    tuning.down = rng.within(2, 4) as u32;
    tuning.up = rng.within(1, tuning.down as usize - 1) as u32;
}

fn sources(rng: &mut Rng, job: &mut Job) {
    let nodes = job.kind.len() as u16;
    match rng.below(6) {
        0 => length(rng, &mut job.source, 0),
        1 => no_nets(rng, job),
        2 if rng.once_in(10) => too_many_nets(rng, job),
        _ => put_no_node(rng, &mut job.source, nodes),
    }
}

/// Table 5 as the writer refuses it, or with a net more or fewer, or with two nets of one source.
pub fn writer_source(rng: &mut Rng, source: &mut Vec<u16>) {
    match rng.below(8) {
        0 => source.clear(),
        1 => source.resize(rng.pick(&[512, 513, 514, 65_536]), 4_095),
        2 => length(rng, source, 0),
        3 => {
            let copied = source.first().copied().unwrap_or(0);
            put(rng, source, copied);
        }
        4 => put(rng, source, 4_095),
        _ => {
            let node = rng.pick(&[4_096, 4_097, 32_768, u16::MAX]);
            put(rng, source, node);
        }
    }
}

/// No nets, the other tables fitting or not.
fn no_nets(rng: &mut Rng, job: &mut Job) {
    job.source.clear();
    if rng.percent(70) {
        job.first_sink = vec![0];
        job.sink.clear();
    }
}

/// 513 nets or more, with as many sinks as are missing.
fn too_many_nets(rng: &mut Rng, job: &mut Job) {
    let nets = rng.pick(&[513, 514, 65_536]);
    let mut nodes = (0, 1);
    if rng.percent(50) {
        nodes = (1, 0);
    }
    while job.source.len() < nets {
        job.add_net(nodes.0, &[nodes.1]);
    }
}

fn sinks(rng: &mut Rng, job: &mut Job) {
    let nodes = job.kind.len() as u16;
    match rng.below(8) {
        0 | 1 => put_no_node(rng, &mut job.sink, nodes),
        2 | 3 => repeat_sink(rng, job),
        4 | 5 => source_as_sink(rng, job),
        6 if rng.once_in(20) => too_many_sinks(rng, job),
        _ => length(rng, &mut job.sink, 1),
    }
}

/// A source or sink of any kind: its node gets the kind, or its entry another node.
fn pin(rng: &mut Rng, job: &mut Job) {
    let table = if rng.percent(50) { &mut job.source } else { &mut job.sink };
    if table.is_empty() || job.kind.is_empty() {
        return;
    }
    let place = rng.below(table.len());
    if rng.percent(30) {
        table[place] = rng.below(job.kind.len()) as u16;
    } else if let Some(kind) = job.kind.get_mut(table[place] as usize) {
        *kind = rng.pick(&[0, 1, 2, 3, 4, 5, 15, 53]);
    }
}

/// A net's places in the sink table, if they are there.
fn sink_row(rng: &mut Rng, job: &Job) -> Option<(usize, usize, usize)> {
    let nets = job.source.len().min(job.first_sink.len().saturating_sub(1));
    if nets == 0 {
        return None;
    }
    let net = rng.below(nets);
    let (from, end) = (job.first_sink[net] as usize, job.first_sink[net + 1] as usize);
    (from < end && end <= job.sink.len()).then_some((net, from, end))
}

/// One more sink in a net, equal to one of its own.
fn repeat_sink(rng: &mut Rng, job: &mut Job) {
    let Some((net, from, end)) = sink_row(rng, job) else { return };
    let copied = job.sink[rng.within(from, end - 1)];
    job.sink.insert(rng.within(from, end), copied);
    for first in &mut job.first_sink[net + 1..] {
        *first = first.wrapping_add(1);
    }
}

fn source_as_sink(rng: &mut Rng, job: &mut Job) {
    let Some((net, from, end)) = sink_row(rng, job) else { return };
    job.sink[rng.within(from, end - 1)] = job.source[net];
}

/// 4,097 sinks, in all else sound.
fn too_many_sinks(rng: &mut Rng, job: &mut Job) {
    let terms = job.terms();
    *job = jobs::many_sinks(rng, 4_097);
    job.set_terms(terms);
}
