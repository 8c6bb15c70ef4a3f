//! Sound jobs from a seed.

use crate::{Job, Rng, Tuning, PLAIN_RULE, PLAIN_UNTIL};

/// A job as lists of lists, from which the tables are made.
#[derive(Clone, Debug)]
pub struct Plan {
    pub kind: Vec<u8>,
    pub capacity: Vec<u8>,
    pub rows: Vec<Vec<u16>>,
    pub nets: Vec<(u16, Vec<u16>)>,
    pub limit: u32,
    pub tuning: Tuning,
    pub rule: u32,
    pub until: u32,
}

impl Plan {
    /// A graph of wires of length 1, capacities 1, without edges and nets, with the plain tuning and rule.
    pub(crate) fn empty(nodes: usize) -> Plan {
        Plan {
            kind: vec![4; nodes],
            capacity: vec![1; nodes],
            rows: vec![Vec::new(); nodes],
            nets: Vec::new(),
            limit: 1,
            tuning: Tuning::PLAIN,
            rule: PLAIN_RULE,
            until: PLAIN_UNTIL,
        }
    }

    pub fn nodes(&self) -> usize {
        self.kind.len()
    }

    /// Adds an edge, unless it is one from a node to itself.
    fn join(&mut self, from: usize, to: usize) {
        if from != to {
            self.rows[from].push(to as u16);
        }
    }

    /// Adds edges both ways.
    fn both(&mut self, one: usize, other: usize) {
        self.join(one, other);
        self.join(other, one);
    }

    /// Brings each row in rising order, nothing twice.
    fn tidy(&mut self) {
        for row in &mut self.rows {
            row.sort_unstable();
            row.dedup();
        }
    }

    /// The tables.
    pub fn job(&self) -> Job {
        let mut job = Job::new(self.kind.clone(), self.capacity.clone(), &self.rows, &self.nets, self.limit);
        (job.tuning, job.rule, job.until) = (self.tuning, self.rule, self.until);
        job
    }
}

/// A sound job, timed or not.
pub fn job(rng: &mut Rng) -> Job {
    let plan = plan(rng);
    perhaps_timed(rng, plan.job())
}

/// A sound job of few nodes, timed or not.
pub fn small(rng: &mut Rng) -> Job {
    let mut plan = untuned_small(rng);
    finish(rng, &mut plan);
    perhaps_timed(rng, plan.job())
}

/// One in four jobs is timed. Of the others some have tables 9 and 10 all the same, of any length with anything in them.
pub fn perhaps_timed(rng: &mut Rng, mut job: Job) -> Job {
    if rng.percent(25) {
        return timed(rng, job);
    }
    if rng.once_in(4) {
        job.delay = vec![rng.draw() as u16; rng.below(20)];
        job.criticality = vec![rng.draw() as u8; rng.below(20)];
    }
    job
}

/// The same job with delays and criticalities. Its limit is one that a timed job may have, but for a few.
pub fn timed(rng: &mut Rng, mut job: Job) -> Job {
    let delays = rng.pick(&[Delays::None, Delays::Even, Delays::Few, Delays::Any, Delays::Bounds]);
    job.delay = job.kind.iter().map(|_| delays.draw(rng)).collect();
    let tenths: &[u8] = match rng.below(6) {
        0 => &[0],
        1 => &[9],
        2 => &[0, 9],
        3 => &[5],
        4 => &[4, 5, 5, 6],
        _ => &[0, 1, 2, 3, 4, 5, 6, 7, 8, 9],
    };
    job.criticality = job.sink.iter().map(|_| rng.pick(tenths)).collect();
    job.timed = 1;
    job.limit = match rng.below(40) {
        0 => rng.pick(&[40, 41, 42, 99, 100]),
        _ => job.limit.min(40),
    };
    job
}

/// What a job's delays are like.
#[derive(Clone, Copy)]
enum Delays {
    None,
    /// Such as make a path with delay as dear as one with a longer wire.
    Even,
    Few,
    Any,
    Bounds,
}

impl Delays {
    fn draw(self, rng: &mut Rng) -> u16 {
        match self {
            Delays::None => 0,
            Delays::Even => rng.pick(&[0, 0, 20, 40, 60]),
            Delays::Few => rng.pick(&[0, 1, 1, 2]),
            Delays::Any => rng.below(1_001) as u16,
            Delays::Bounds => rng.pick(&[0, 1, 999, 1_000]),
        }
    }
}

/// A sound job's lists.
pub fn plan(rng: &mut Rng) -> Plan {
    let mut plan = untuned(rng);
    finish(rng, &mut plan);
    plan
}

/// What jobs of every family may have: a tuning, either rule from any iteration on, and nets broken into several of one source.
pub(crate) fn finish(rng: &mut Rng, plan: &mut Plan) {
    plan.tuning = tuning(rng);
    plan.rule = rule(rng);
    plan.until = until(rng);
    if rng.percent(35) {
        split(rng, plan);
    }
}

/// Breaks nets into up to five of one source each, as synthesizers do; some sinks stand in more than one of them.
fn split(rng: &mut Rng, plan: &mut Plan) {
    const PARTS: usize = 5;
    if plan.nets.len() * PARTS > 512 {
        return;
    }
    let mut nets = Vec::new();
    for (source, sinks) in std::mem::take(&mut plan.nets) {
        let count = rng.pick(&[1, 1, 2, 3, PARTS]);
        nets.extend(parts(rng, &sinks, count).into_iter().map(|list| (source, list)));
    }
    if rng.percent(60) {
        rng.shuffle(&mut nets);
    }
    plan.nets = nets;
}

/// So many lists of sinks: each sink is in one of them, at times in two, and none is empty.
fn parts(rng: &mut Rng, sinks: &[u16], count: usize) -> Vec<Vec<u16>> {
    let mut parts = vec![Vec::new(); count];
    for sink in sinks {
        let (one, other) = (rng.below(count), rng.below(count));
        parts[one].push(*sink);
        if other != one && rng.percent(50) {
            parts[other].push(*sink);
        }
    }
    for part in parts.iter_mut().filter(|part| part.is_empty()) {
        part.push(rng.pick(sinks));
    }
    parts
}

/// The plain tuning or any other, its bounds more often than what is between them.
pub fn tuning(rng: &mut Rng) -> Tuning {
    if rng.percent(40) {
        return Tuning::PLAIN;
    }
    let down = rng.within(1, 4);
    let up = match rng.below(4) {
        0 => down,
        1 => 8,
        _ => rng.within(down, 8),
    };
    let first = match rng.below(3) {
        0 => rng.below(1_001),
        _ => rng.pick(&[0, 1, 2, 10, 49, 50, 51, 999, 1_000]),
    };
    Tuning { first: first as u32, up: up as u32, down: down as u32, step: rng.within(1, 2) as u32 }
}

/// Either rule.
pub fn rule(rng: &mut Rng) -> u32 {
    rng.within(1, 2) as u32
}

/// The last iteration before rule 2 holds: mostly an early one.
pub fn until(rng: &mut Rng) -> u32 {
    match rng.below(10) {
        0..=3 => PLAIN_UNTIL,
        4 => rng.pick(&[10, 98, 99]),
        _ => rng.within(1, 5) as u32,
    }
}

/// A sound job's lists with the plain tuning and rule.
fn untuned(rng: &mut Rng) -> Plan {
    match rng.below(1000) {
        0..=2 => large(rng),
        3 => crowd(rng),
        4..=69 => {
            let nodes = rng.within(15, 60);
            any(rng, nodes, 4)
        }
        70..=119 => heavy(rng),
        _ => untuned_small(rng),
    }
}

/// A job of few nodes, often a congested one, with the plain tuning and rule.
fn untuned_small(rng: &mut Rng) -> Plan {
    if rng.percent(45) {
        congested(rng)
    } else {
        let nodes = rng.within(2, 14);
        any(rng, nodes, 6)
    }
}

/// A random graph with nets anywhere.
fn any(rng: &mut Rng, nodes: usize, nets: usize) -> Plan {
    let mut plan = edges(rng, nodes);
    kinds(rng, &mut plan);
    capacities(rng, &mut plan);
    let most = match rng.below(12) {
        0 => 4 * nets,
        1..=3 => nets,
        _ => nets.min(nodes / 3).max(1),
    };
    let count = rng.within(1, most);
    add_nets(rng, &mut plan, count);
    plan.limit = limit(rng, nodes);
    plan
}

/// Several hundred nodes, few nets and iterations.
fn large(rng: &mut Rng) -> Plan {
    let nodes = rng.within(100, 400);
    let mut plan = if rng.percent(70) { grid(rng, nodes) } else { sparse(rng, nodes) };
    kinds(rng, &mut plan);
    capacities(rng, &mut plan);
    let count = rng.within(1, 3);
    add_nets(rng, &mut plan, count);
    for net in &mut plan.nets {
        net.1.truncate(3);
    }
    plan.limit = rng.within(1, 3) as u32;
    plan
}

/// Hundreds of nets: of few nodes, so that most are joined, or each of its own source over the same wires.
fn crowd(rng: &mut Rng) -> Plan {
    let count = rng.pick(&[100, 254, 255, 256, 257, 300]);
    let mut plan = if rng.percent(50) { few_sources(rng, count) } else { hubs(rng, count) };
    for capacity in &mut plan.capacity {
        *capacity = rng.pick(&[1, 100, 254, 255]);
    }
    for net in &mut plan.nets {
        net.1.truncate(2);
    }
    plan.limit = rng.within(1, 2) as u32;
    plan
}

/// So many nets on a few nodes.
fn few_sources(rng: &mut Rng, count: usize) -> Plan {
    let nodes = rng.within(3, 10);
    let mut plan = edges(rng, nodes);
    kinds(rng, &mut plan);
    add_nets(rng, &mut plan, count);
    plan
}

/// So many sources, each with edges to all of a few wires, and these to all of a few sinks.
fn hubs(rng: &mut Rng, count: usize) -> Plan {
    let (wires, sinks) = (rng.within(1, 3), rng.within(1, 3));
    let mut plan = Plan::empty(count + wires + sinks);
    for wire in count..count + wires {
        (0..count).for_each(|source| plan.join(source, wire));
        (0..sinks).for_each(|sink| plan.join(wire, count + wires + sink));
    }
    let list: Vec<u16> = (0..sinks).map(|sink| (count + wires + sink) as u16).collect();
    for source in 0..count {
        let mut list = list.clone();
        rng.shuffle(&mut list);
        plan.nets.push((source as u16, list));
    }
    pin_kinds(rng, &mut plan);
    plan
}

/// Sources, a few wires, sinks: more nets than wires, or just as many.
fn congested(rng: &mut Rng) -> Plan {
    let nets = rng.within(2, 6);
    let wires = wire_count(rng, nets);
    wired(rng, nets, wires)
}

/// So many nets over so many wires.
fn wired(rng: &mut Rng, nets: usize, wires: usize) -> Plan {
    let mut plan = Plan::empty(2 * nets + wires);
    let reach = rng.pick(&[20, 40, 60, 80, 100]);
    let mut own: Vec<usize> = (0..wires).collect();
    rng.shuffle(&mut own);
    for net in 0..nets {
        plan.kind[net] = 0;
        plan.kind[nets + wires + net] = 1;
        link(rng, &mut plan, nets, net, own[net % wires], reach);
    }
    between_wires(rng, &mut plan, nets, wires);
    wire_kinds(rng, &mut plan, nets, wires);
    let sinks = rng.pick(&[1, 1, 1, 2, 3]).min(nets);
    next_sinks(&mut plan, nets, wires, sinks);
    plan.tidy();
    if sinks > 1 {
        keep_reached(rng, &mut plan);
    }
    if rng.percent(30) {
        renumber(rng, &mut plan);
    }
    if rng.percent(20) {
        capacities(rng, &mut plan);
    } else {
        widen_sinks(&mut plan, sinks);
    }
    pin_kinds(rng, &mut plan);
    plan.limit = rng.within(2, 20) as u32;
    plan
}

/// A few edges from wire to wire.
fn between_wires(rng: &mut Rng, plan: &mut Plan, nets: usize, wires: usize) {
    for one in 0..wires {
        for other in 0..wires {
            if rng.percent(20) {
                plan.join(nets + one, nets + other);
            }
        }
    }
}

/// Gives each net its own sink and those of the nets after it, so many in all.
fn next_sinks(plan: &mut Plan, nets: usize, wires: usize, sinks: usize) {
    for net in 0..nets {
        let list = (0..sinks).map(|step| (nets + wires + (net + step) % nets) as u16).collect();
        plan.nets.push((net as u16, list));
    }
}

/// Gives sinks the capacity for so many nets.
fn widen_sinks(plan: &mut Plan, nets: usize) {
    for net in &plan.nets {
        for sink in &net.1 {
            plan.capacity[*sink as usize] = nets as u8;
        }
    }
}

/// How many wires: mostly about enough, at times far too few.
fn wire_count(rng: &mut Rng, nets: usize) -> usize {
    if rng.percent(20) {
        rng.within(1, nets)
    } else {
        rng.within(nets - 1, nets + 2)
    }
}

/// Joins a net's source and sink to some of the wires, in any case to its own one.
fn link(rng: &mut Rng, plan: &mut Plan, nets: usize, net: usize, own: usize, reach: usize) {
    let wires = plan.nodes() - 2 * nets;
    for wire in 0..wires {
        if wire == own || rng.percent(reach) {
            plan.join(net, nets + wire);
        }
        if wire == own || rng.percent(reach) {
            plan.join(nets + wire, nets + wires + net);
        }
    }
}

/// Lengths of wires, equal or nearly so.
fn wire_kinds(rng: &mut Rng, plan: &mut Plan, nets: usize, wires: usize) {
    let most = rng.pick(&[4, 4, 5, 6, 53]);
    for wire in nets..nets + wires {
        plan.kind[wire] = rng.within(4, most) as u8;
    }
}

/// Unroutable jobs of long wires and many iterations: costs beyond 32 bits.
fn heavy(rng: &mut Rng) -> Plan {
    let nets = rng.within(3, 6);
    let wires = rng.within(1, 3);
    let mut plan = wired(rng, nets, wires);
    plan.limit = rng.within(19, 32) as u32;
    if rng.once_in(8) {
        plan.limit = rng.within(33, 100) as u32;
    }
    for kind in &mut plan.kind {
        if *kind >= 4 && rng.percent(80) {
            *kind = rng.pick(&[15, 16, 52, 53]);
        }
    }
    plan
}

/// Unroutable jobs with many nets and iterations: long logs.
pub fn endless(rng: &mut Rng) -> Job {
    let nets = rng.within(9, 14);
    let wires = rng.within(2, 4);
    let mut plan = wired(rng, nets, wires);
    plan.limit = rng.within(60, 100) as u32;
    finish(rng, &mut plan);
    perhaps_timed(rng, plan.job())
}

/// Gives the nodes other numbers.
fn renumber(rng: &mut Rng, plan: &mut Plan) {
    let mut number: Vec<u16> = (0..plan.nodes() as u16).collect();
    rng.shuffle(&mut number);
    let old = plan.clone();
    for node in 0..old.nodes() {
        let new = number[node] as usize;
        plan.kind[new] = old.kind[node];
        plan.capacity[new] = old.capacity[node];
        plan.rows[new] = old.rows[node].iter().map(|to| number[*to as usize]).collect();
    }
    for net in &mut plan.nets {
        net.0 = number[net.0 as usize];
        for sink in &mut net.1 {
            *sink = number[*sink as usize];
        }
    }
    plan.tidy();
}

/// A graph of some form.
fn edges(rng: &mut Rng, nodes: usize) -> Plan {
    match rng.below(6) {
        0 => sparse(rng, nodes),
        1 => dense(rng, nodes),
        2 | 3 => grid(rng, nodes),
        4 => layers(rng, nodes),
        _ => ring(rng, nodes),
    }
}

/// One to three edges a node.
fn sparse(rng: &mut Rng, nodes: usize) -> Plan {
    let mut plan = Plan::empty(nodes);
    for node in 0..nodes {
        for _ in 0..rng.within(1, 3) {
            let to = rng.below(nodes);
            plan.join(node, to);
        }
    }
    plan.tidy();
    plan
}

/// Many of all edges, or every one.
fn dense(rng: &mut Rng, nodes: usize) -> Plan {
    let mut plan = Plan::empty(nodes);
    let chance = rng.pick(&[40, 60, 80, 100]);
    for from in 0..nodes {
        for to in 0..nodes {
            if rng.percent(chance) {
                plan.join(from, to);
            }
        }
    }
    plan.tidy();
    plan
}

/// Neighbours in rows of equal width, some edges left out.
fn grid(rng: &mut Rng, nodes: usize) -> Plan {
    let mut plan = Plan::empty(nodes);
    let root = (1..).find(|side| side * side >= nodes).unwrap();
    let width = rng.within(1, root + 1);
    let kept = rng.pick(&[70, 90, 100]);
    for node in 0..nodes {
        if (node + 1) % width != 0 && node + 1 < nodes && rng.percent(kept) {
            plan.both(node, node + 1);
        }
        if node + width < nodes && rng.percent(kept) {
            plan.both(node, node + width);
        }
    }
    plan.tidy();
    plan
}

/// Each layer has edges to the next one.
fn layers(rng: &mut Rng, nodes: usize) -> Plan {
    let mut plan = Plan::empty(nodes);
    let width = rng.within(1, 4);
    for from in 0..nodes {
        let next = (from / width + 1) * width;
        for to in next..(next + width).min(nodes) {
            if rng.percent(75) {
                plan.join(from, to);
            }
        }
    }
    plan.tidy();
    plan
}

/// A ring with a few further edges.
fn ring(rng: &mut Rng, nodes: usize) -> Plan {
    let mut plan = Plan::empty(nodes);
    let one_way = rng.percent(50);
    for node in 0..nodes {
        plan.join(node, (node + 1) % nodes);
        if !one_way {
            plan.join((node + 1) % nodes, node);
        }
    }
    for _ in 0..rng.below(nodes / 2 + 1) {
        let (from, to) = (rng.below(nodes), rng.below(nodes));
        plan.join(from, to);
    }
    plan.tidy();
    plan
}

/// Kinds, mostly such that many costs are equal.
fn kinds(rng: &mut Rng, plan: &mut Plan) {
    let choices: &[u8] = match rng.below(6) {
        0 => &[4],
        1 => &[0, 1, 2, 4],
        2 => &[3, 4],
        3 => &[4, 5],
        4 => &[4, 4, 4, 5, 6, 7],
        _ => &[0, 1, 2, 3, 4, 5, 6, 7, 8, 9, 14, 15, 16, 17, 33, 52, 53],
    };
    for kind in &mut plan.kind {
        *kind = rng.pick(choices);
    }
}

/// Capacities, mostly 1.
fn capacities(rng: &mut Rng, plan: &mut Plan) {
    let choices: &[u8] = match rng.below(8) {
        0..=3 => &[1],
        4 | 5 => &[1, 1, 1, 2],
        6 => &[1, 2, 3],
        _ => &[1, 2, 3, 4, 5, 7, 100, 255],
    };
    for capacity in &mut plan.capacity {
        *capacity = rng.pick(choices);
    }
}

/// What a node is to the nets so far.
#[derive(Clone, Copy, PartialEq, Eq)]
enum Role {
    Free,
    Source,
    Sink,
}

/// Adds nets and gives their pins kinds; their sinks are mostly ones that have a path. No node is a source and a sink.
fn add_nets(rng: &mut Rng, plan: &mut Plan, count: usize) {
    let anywhere = rng.percent(12);
    let apart = rng.percent(80);
    let most = if rng.percent(20) { plan.nodes() } else { 3 };
    let mut roles = vec![Role::Free; plan.nodes()];
    for _ in 0..count {
        let source = start(rng, plan, &roles, apart);
        roles[source] = Role::Source;
        let mut sinks = if anywhere { Vec::new() } else { reached(plan, source) };
        sinks.retain(|node| roles[*node as usize] != Role::Source);
        if apart && sinks.iter().any(|node| roles[*node as usize] == Role::Free) {
            sinks.retain(|node| roles[*node as usize] == Role::Free);
        }
        if sinks.is_empty() {
            sinks = (0..plan.nodes() as u16).filter(|node| roles[*node as usize] != Role::Source).collect();
        }
        rng.shuffle(&mut sinks);
        sinks.truncate(rng.within(1, most));
        for sink in &sinks {
            roles[*sink as usize] = Role::Sink;
        }
        plan.nets.push((source as u16, sinks));
    }
    pin_kinds(rng, plan);
}

/// A source that is no sink, if possible one with edges and no part in other nets.
fn start(rng: &mut Rng, plan: &Plan, roles: &[Role], apart: bool) -> usize {
    let choices: Vec<usize> = (0..plan.nodes()).filter(|node| roles[*node] != Role::Sink).collect();
    let mut node = rng.pick(&choices);
    for _ in 0..8 {
        let taken = apart && roles[node] == Role::Source;
        if !plan.rows[node].is_empty() && !taken {
            break;
        }
        node = rng.pick(&choices);
    }
    node
}

/// Gives sources kind 0 or 2 and sinks kind 1 or 3, at times all of them one kind.
fn pin_kinds(rng: &mut Rng, plan: &mut Plan) {
    let sources = rng.pick(&[[0, 2], [0, 0], [2, 2]]);
    let sinks = rng.pick(&[[1, 3], [1, 1], [3, 3]]);
    for (source, list) in &plan.nets {
        plan.kind[*source as usize] = rng.pick(&sources);
        for sink in list {
            plan.kind[*sink as usize] = rng.pick(&sinks);
        }
    }
}

/// Leaves out sinks without a path, mostly.
fn keep_reached(rng: &mut Rng, plan: &mut Plan) {
    if rng.once_in(10) {
        return;
    }
    for net in 0..plan.nets.len() {
        let reached = reached(plan, plan.nets[net].0 as usize);
        plan.nets[net].1.retain(|sink| reached.contains(sink));
    }
    plan.nets.retain(|net| !net.1.is_empty());
}

/// The nodes that a node has a path to, itself left out.
fn reached(plan: &Plan, from: usize) -> Vec<u16> {
    let mut seen = vec![false; plan.nodes()];
    seen[from] = true;
    let mut list = vec![from as u16];
    let mut place = 0;
    while place < list.len() {
        for to in &plan.rows[list[place] as usize] {
            if !seen[*to as usize] {
                seen[*to as usize] = true;
                list.push(*to);
            }
        }
        place += 1;
    }
    list.remove(0);
    list
}

/// A limit, small for many nodes.
fn limit(rng: &mut Rng, nodes: usize) -> u32 {
    let most = if nodes > 14 { 5 } else { 20 };
    rng.within(1, most) as u32
}

/// All edges of `nodes` nodes in order, at most `edges` of them; one net between the ends.
pub fn full(nodes: usize, edges: usize) -> Job {
    let mut plan = Plan::empty(nodes);
    let mut left = edges;
    for from in 0..nodes {
        for to in 0..nodes {
            if from != to && left > 0 {
                plan.join(from, to);
                left -= 1;
            }
        }
    }
    plan.nets.push((0, vec![1]));
    (plan.kind[0], plan.kind[1]) = (0, 1);
    plan.job()
}

/// 512 nets from three nodes to nine others with so many sinks in all (512 to 4,608).
pub fn many_sinks(rng: &mut Rng, sinks: usize) -> Job {
    let mut plan = Plan::empty(12);
    for from in 0..12 {
        for to in 0..12 {
            plan.join(from, to);
        }
    }
    plan.capacity.fill(255);
    for net in 0..512 {
        let count = sinks / 512 + usize::from(net < sinks % 512);
        let first = rng.below(9);
        let list = (first..first + count).map(|step| (3 + step % 9) as u16).collect();
        plan.nets.push((rng.below(3) as u16, list));
    }
    pin_kinds(rng, &mut plan);
    plan.job()
}

/// A line of so many nodes, one net from its start to its end.
pub fn line(nodes: usize) -> Job {
    let mut plan = Plan::empty(nodes);
    for node in 1..nodes {
        plan.join(node - 1, node);
    }
    plan.nets.push((0, vec![nodes as u16 - 1]));
    (plan.kind[0], plan.kind[nodes - 1]) = (2, 3);
    plan.job()
}

#[cfg(test)]
mod tests {
    use super::*;

    /// Parts have together exactly the net's sinks, none empty, none with a sink twice.
    #[test]
    fn parts_have_all_sinks() {
        let mut rng = Rng::new(3);
        for count in 1..6 {
            let sinks: Vec<u16> = (5..5 + count as u16).collect();
            for part_count in 1..6 {
                let parts = parts(&mut rng, &sinks, part_count);
                assert!(parts.len() == part_count && parts.iter().all(|part| !part.is_empty()));
                let mut all = parts.concat();
                all.sort_unstable();
                all.dedup();
                assert_eq!(all, sinks);
                assert!(parts
                    .iter()
                    .all(|part| (1..part.len()).all(|place| !part[..place].contains(&part[place]))));
            }
        }
    }

    /// Nets of one source, of three and more, and of one with a repeated sink come often enough to be met.
    #[test]
    fn sources_are_shared() {
        let mut rng = Rng::new(1);
        let (mut shared, mut by_three, mut repeated) = (0, 0, 0);
        for _ in 0..500 {
            let nets = &plan(&mut rng).nets;
            let same = |net: usize| nets.iter().filter(move |other| other.0 == nets[net].0);
            let most = (0..nets.len()).map(|net| same(net).count()).max().unwrap_or(0);
            let twice = |net: usize| {
                nets[net].1.iter().any(|sink| same(net).filter(|other| other.1.contains(sink)).count() > 1)
            };
            shared += usize::from(most > 1);
            by_three += usize::from(most > 2);
            repeated += usize::from((0..nets.len()).any(twice));
        }
        assert!(shared > 150 && by_three > 100 && repeated > 100, "{shared} {by_three} {repeated}");
    }

    /// Timed jobs come often enough to be met, with joined nets, under both rules, and beyond the limit too.
    #[test]
    fn some_jobs_are_timed() {
        let mut rng = Rng::new(1);
        let jobs: Vec<Job> = (0..2_000).map(|_| job(&mut rng)).collect();
        let timed: Vec<&Job> = jobs.iter().filter(|job| job.is_timed()).collect();
        assert!(timed.iter().all(|job| job.delay.len() == job.kind.len()));
        assert!(timed.iter().all(|job| job.criticality.len() == job.sink.len()));
        let count = |met: fn(&Job) -> bool| timed.iter().filter(|job| met(job)).count();
        let joined =
            |job: &Job| (1..job.source.len()).any(|net| job.source[..net].contains(&job.source[net]));
        let met = [timed.len(), count(joined), count(|job| job.rule == 2), count(|job| job.limit > 40)];
        assert!(met[0] > 400 && met[1] > 100 && met[2] > 100 && met[3] > 3, "{met:?}");
        let lent = jobs.iter().filter(|job| !job.is_timed() && !job.delay.is_empty()).count();
        assert!(lent > 100, "{lent}");
    }
}
