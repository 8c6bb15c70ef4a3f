//! Windows of a chip: the wires and switches of some tiles as a block, with their places.

use crate::chip::{Chip, Segment, Switch, Tile};
use job::Rng;
use std::collections::{BTreeMap, BTreeSet};

/// The kinds of a job text.
const OUTPUT: u8 = 2;
const INPUT: u8 = 3;
/// A wire of one tile; a tile more is a kind more.
const WIRE: u8 = 4;

/// The tiles from one corner to the other, both included.
#[derive(Clone, Copy)]
pub struct Area {
    pub low: Tile,
    pub high: Tile,
}

impl Area {
    pub fn has(&self, tile: Tile) -> bool {
        (self.low.0..=self.high.0).contains(&tile.0) && (self.low.1..=self.high.1).contains(&tile.1)
    }
}

/// A block cut out of a chip. Each node is a wire of the chip, each edge a switch.
pub struct Window {
    pub kind: Vec<u8>,
    pub rows: Vec<Vec<u16>>,
    /// Where each node is: a pin's tile, the middle of a wire.
    pub place: Vec<Tile>,
    /// Each edge's tile, in the order of the rows.
    pub switch_place: Vec<Vec<Tile>>,
}

/// A LUT's output or input, from its name in its own tile.
fn pin(name: &str) -> Option<u8> {
    let port = name.strip_prefix("lutff_")?.split_once('/')?.1;
    match port {
        "out" => Some(OUTPUT),
        "in_0" | "in_1" | "in_2" | "in_3" => Some(INPUT),
        _ => None,
    }
}

/// Whether that is the wire's own name in a tile that it passes, and not the next column's name for it.
fn spans(segment: &Segment) -> bool {
    ["sp4_h", "sp4_v", "sp12_", "span4_", "span12_"].iter().any(|start| segment.name.starts_with(start))
}

/// From the lowest to the highest of some tiles.
fn extent(segments: &[&Segment]) -> (Tile, Tile) {
    let columns = segments.iter().map(|segment| segment.tile.0);
    let rows = segments.iter().map(|segment| segment.tile.1);
    let low = (columns.clone().min().unwrap_or(0), rows.clone().min().unwrap_or(0));
    (low, (columns.max().unwrap_or(0), rows.max().unwrap_or(0)))
}

/// A wire's kind and place: a pin is at its own tile, a wire as long as from its first tile to its last in the chip, but at least one tile.
fn kind_and_place(segments: &[Segment]) -> (u8, Tile) {
    if let Some((kind, tile)) = segments.iter().find_map(|s| Some((pin(&s.name)?, s.tile))) {
        return (kind, tile);
    }
    let own: Vec<&Segment> = segments.iter().filter(|segment| spans(segment)).collect();
    let (low, high) = extent(if own.is_empty() { &[] } else { &own });
    let length = (high.0 - low.0 + high.1 - low.1).clamp(1, 50);
    let place = match own.is_empty() {
        true => segments[0].tile,
        false => ((low.0 + high.0) / 2, (low.1 + high.1) / 2),
    };
    (WIRE + length as u8 - 1, place)
}

/// The wires that lie on a way from some wires, by these steps.
fn spread(from: impl Iterator<Item = usize>, steps: &BTreeMap<usize, Vec<usize>>) -> BTreeSet<usize> {
    let mut waiting: Vec<usize> = from.collect();
    let mut seen: BTreeSet<usize> = waiting.iter().copied().collect();
    while let Some(wire) = waiting.pop() {
        for &next in steps.get(&wire).into_iter().flatten() {
            if seen.insert(next) {
                waiting.push(next);
            }
        }
    }
    seen
}

/// The wires on a way from an output to an input, both in the window.
fn useful(
    kinds: &BTreeMap<usize, (u8, Tile)>,
    switches: &BTreeMap<(usize, usize), Tile>,
    area: Area,
) -> Vec<usize> {
    let (mut ahead, mut back) = (BTreeMap::<_, Vec<_>>::new(), BTreeMap::<_, Vec<_>>::new());
    for &(from, to) in switches.keys() {
        ahead.entry(from).or_default().push(to);
        back.entry(to).or_default().push(from);
    }
    let pins = |wanted| {
        let own = move |(kind, tile): (u8, Tile)| kind == wanted && area.has(tile);
        kinds.iter().filter(move |(_, &wire)| own(wire)).map(|(&wire, _)| wire)
    };
    let reaching = spread(pins(INPUT), &back);
    spread(pins(OUTPUT), &ahead).into_iter().filter(|wire| reaching.contains(wire)).collect()
}

impl Window {
    /// Cuts an area out of a chip. So many wires in a hundred are removed first, but no pin. What no way from an output to an input
    /// needs is left out.
    pub fn cut(chip: &Chip, area: Area, removed: usize, seed: u64) -> Window {
        let mut rng = Rng::new(seed);
        let inside = |switch: &&Switch| area.has(switch.tile);
        let mut kinds = BTreeMap::new();
        for switch in chip.switches.iter().filter(inside) {
            for wire in [switch.from, switch.to] {
                kinds.entry(wire).or_insert_with(|| kind_and_place(&chip.wires[&wire]));
            }
        }
        kinds.retain(|_, (kind, _)| *kind < WIRE || !rng.percent(removed));
        let mut switches = BTreeMap::new();
        for switch in chip.switches.iter().filter(inside) {
            if kinds.contains_key(&switch.from) && kinds.contains_key(&switch.to) && switch.from != switch.to
            {
                switches.entry((switch.from, switch.to)).or_insert(switch.tile);
            }
        }
        let kept = useful(&kinds, &switches, area);
        Window::number(&kept, &kinds, &switches)
    }

    /// The kept wires as nodes, numbered as in the chip's order.
    fn number(
        kept: &[usize],
        kinds: &BTreeMap<usize, (u8, Tile)>,
        switches: &BTreeMap<(usize, usize), Tile>,
    ) -> Window {
        let node: BTreeMap<usize, u16> =
            kept.iter().enumerate().map(|(node, &wire)| (wire, node as u16)).collect();
        let mut window = Window {
            kind: kept.iter().map(|wire| kinds[wire].0).collect(),
            rows: vec![Vec::new(); kept.len()],
            place: kept.iter().map(|wire| kinds[wire].1).collect(),
            switch_place: vec![Vec::new(); kept.len()],
        };
        for ((from, to), &tile) in switches {
            if let (Some(&from), Some(&to)) = (node.get(from), node.get(to)) {
                window.rows[from as usize].push(to);
                window.switch_place[from as usize].push(tile);
            }
        }
        window
    }

    pub fn edges(&self) -> usize {
        self.rows.iter().map(Vec::len).sum()
    }

    fn pins(&self, kind: u8) -> Vec<u16> {
        (0..self.kind.len()).filter(|&node| self.kind[node] == kind).map(|node| node as u16).collect()
    }

    pub fn outputs(&self) -> Vec<u16> {
        self.pins(OUTPUT)
    }

    pub fn inputs(&self) -> Vec<u16> {
        self.pins(INPUT)
    }
}

#[cfg(test)]
mod tests {
    use super::*;

    /// An output that a wire over four tiles leads to an input of another tile; a wire that leads nowhere; a switch outside the window.
    const CHIP: &str = "\
.net 0\n1 1 lutff_0/out\n2 1 neigh_op_lft_0\n\n\
.net 1\n2 1 local_g0_0\n\n\
.net 2\n2 1 lutff_1/in_0\n\n\
.net 3\n1 1 sp4_h_r_0\n2 1 sp4_h_r_13\n3 1 sp4_h_r_24\n4 1 sp4_h_r_37\n5 1 sp4_h_l_37\n\n\
.net 4\n1 1 local_g0_1\n\n\
.buffer 1 1 3 B0[0]\n1 0\n\n.buffer 2 1 1 B0[0]\n1 3\n\n.buffer 2 1 2 B0[0]\n1 1\n\n.buffer 1 1 4 B0[0]\n1 0\n\n.buffer 3 1 1 B0[0]\n1 0\n";

    #[test]
    fn what_is_on_no_way_is_left_out() {
        let chip = Chip::read(CHIP).unwrap();
        let window = Window::cut(&chip, Area { low: (1, 1), high: (2, 1) }, 0, 1);
        assert_eq!(window.kind, [OUTPUT, WIRE, INPUT, WIRE + 3]);
        assert_eq!(window.rows, [vec![3], vec![2], vec![], vec![1]]);
        assert_eq!(window.place, [(1, 1), (2, 1), (2, 1), (3, 1)]);
        assert_eq!(window.switch_place, [vec![(1, 1)], vec![(2, 1)], vec![], vec![(2, 1)]]);
        assert!(Window::cut(&chip, Area { low: (1, 1), high: (2, 1) }, 100, 1).kind.is_empty());
    }
}
