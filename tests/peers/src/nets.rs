//! Nets drawn over a window: from LUT outputs to LUT inputs, mostly near ones.

use crate::window::Window;
use job::Rng;

/// A source and its sinks.
pub type Net = (u16, Vec<u16>);

/// How many sinks a net is drawn with, each as often as it stands here.
const FAN_OUT: [usize; 8] = [1, 1, 1, 2, 2, 3, 4, 6];

/// A near sink is at most so many columns and rows away.
const NEAR: usize = 2;

fn is_near(window: &Window, one: u16, other: u16) -> bool {
    let (one, other) = (window.place[one as usize], window.place[other as usize]);
    one.0.abs_diff(other.0) <= NEAR && one.1.abs_diff(other.1) <= NEAR
}

/// Which nodes can be reached from a node.
fn reached(window: &Window, from: u16) -> Vec<bool> {
    let mut seen = vec![false; window.kind.len()];
    let mut waiting = vec![from];
    while let Some(node) = waiting.pop() {
        if !std::mem::replace(&mut seen[node as usize], true) {
            waiting.extend(&window.rows[node as usize]);
        }
    }
    seen
}

/// Takes an input out of the free ones: three in four times a near one, where there is one.
fn take(rng: &mut Rng, window: &Window, source: u16, free: &mut Vec<u16>) -> Option<u16> {
    let near: Vec<usize> = (0..free.len()).filter(|&place| is_near(window, source, free[place])).collect();
    if free.is_empty() {
        return None;
    }
    let place = if rng.percent(75) && !near.is_empty() { rng.pick(&near) } else { rng.below(free.len()) };
    Some(free.swap_remove(place))
}

/// A sink of a net, with the nodes by which it can be entered from the net's source.
struct Ended {
    net: usize,
    sink: u16,
    entries: Vec<u16>,
}

/// Gives a sink an entry of its own, moving others to another of theirs; false where that can't be.
fn place(sinks: &[Ended], sink: usize, holder: &mut [Option<usize>], tried: &mut [bool]) -> bool {
    for &entry in &sinks[sink].entries {
        if std::mem::replace(&mut tried[entry as usize], true) {
            continue;
        }
        let held = holder[entry as usize];
        if held.is_none_or(|other| place(sinks, other, holder, tried)) {
            holder[entry as usize] = Some(sink);
            return true;
        }
    }
    false
}

/// The sinks that can each be entered by a node of its own.
fn with_entries(window: &Window, sinks: Vec<Ended>) -> Vec<Ended> {
    let nodes = window.kind.len();
    let mut holder = vec![None; nodes];
    let kept: Vec<bool> =
        (0..sinks.len()).map(|sink| place(&sinks, sink, &mut holder, &mut vec![false; nodes])).collect();
    sinks.into_iter().zip(kept).filter(|(_, kept)| *kept).map(|(sink, _)| sink).collect()
}

/// Nets from so many of the outputs in a hundred. A sink that can't be entered beside the others is left out, and a net without sinks.
pub fn draw(window: &Window, used: usize, seed: u64) -> Vec<Net> {
    let mut rng = Rng::new(seed);
    let (mut sources, mut free) = (window.outputs(), window.inputs());
    rng.shuffle(&mut sources);
    sources.truncate(sources.len() * used / 100);
    let mut before = vec![Vec::new(); window.kind.len()];
    for (from, row) in window.rows.iter().enumerate() {
        row.iter().for_each(|&to| before[to as usize].push(from as u16));
    }
    let mut sinks = Vec::new();
    for (net, &source) in sources.iter().enumerate() {
        let reached = reached(window, source);
        for _ in 0..rng.pick(&FAN_OUT) {
            let Some(sink) = take(&mut rng, window, source, &mut free) else { break };
            let entries =
                before[sink as usize].iter().copied().filter(|&node| reached[node as usize]).collect();
            sinks.push(Ended { net, sink, entries });
        }
    }
    let mut nets: Vec<Net> = sources.into_iter().map(|source| (source, Vec::new())).collect();
    for sink in with_entries(window, sinks) {
        nets[sink.net].1.push(sink.sink);
    }
    nets.retain(|net| !net.1.is_empty());
    nets
}

#[cfg(test)]
mod tests {
    use super::*;

    /// Two outputs, wires that both reach, and two inputs that every wire enters.
    fn window(wires: u16) -> Window {
        let (first, second) = (2 + wires, 3 + wires);
        let mut rows = vec![(2..first).collect::<Vec<u16>>(); 2];
        rows.extend((0..wires).map(|_| vec![first, second]));
        rows.extend([vec![], vec![]]);
        let kind = [vec![2; 2], vec![4; wires.into()], vec![3; 2]].concat();
        let switch_place = rows.iter().map(|row| vec![(1, 1); row.len()]).collect();
        Window { place: vec![(1, 1); kind.len()], kind, rows, switch_place }
    }

    #[test]
    fn sinks_without_an_entry_are_left_out() {
        for seed in 0..20 {
            let sinks = |wires| draw(&window(wires), 100, seed).iter().map(|net| net.1.len()).sum::<usize>();
            assert_eq!([sinks(1), sinks(2), sinks(3)], [1, 2, 2], "seed {seed}");
        }
    }
}
