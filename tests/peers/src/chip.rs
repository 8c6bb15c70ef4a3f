//! The chip database of fpga-icestorm: every wire of the chip with the tiles it passes, and every switch with its tile.

use std::collections::BTreeMap;

/// Column and row.
pub type Tile = (usize, usize);

/// What a wire is called in one of its tiles.
pub struct Segment {
    pub tile: Tile,
    pub name: String,
}

/// A switch from one wire to another.
pub struct Switch {
    pub tile: Tile,
    pub from: usize,
    pub to: usize,
}

pub struct Chip {
    /// By the wire's number in the database.
    pub wires: BTreeMap<usize, Vec<Segment>>,
    pub switches: Vec<Switch>,
}

/// To which entry a line without a leading dot belongs.
enum Entry {
    Wire(usize),
    /// The switches that lead to a wire: tile and wire.
    To(Tile, usize),
    Other,
}

/// The number at that place of a line.
fn number(words: &[&str], place: usize) -> Option<usize> {
    words.get(place)?.parse().ok()
}

/// The head of an entry: `.net WIRE`, `.buffer X Y WIRE bits..` or `.routing X Y WIRE bits..`.
fn head(words: &[&str]) -> Option<Entry> {
    match words[0] {
        ".net" => Some(Entry::Wire(number(words, 1)?)),
        ".buffer" | ".routing" => Some(Entry::To((number(words, 1)?, number(words, 2)?), number(words, 3)?)),
        _ => Some(Entry::Other),
    }
}

impl Chip {
    /// Reads a database. Entries that are neither wires nor switches are passed over.
    pub fn read(text: &str) -> Option<Chip> {
        let mut chip = Chip { wires: BTreeMap::new(), switches: Vec::new() };
        let mut entry = Entry::Other;
        for line in text.lines().filter(|line| !line.starts_with('#')) {
            let words: Vec<&str> = line.split_whitespace().collect();
            match words.first() {
                None => {}
                Some(first) if first.starts_with('.') => entry = head(&words)?,
                Some(_) => chip.add(&entry, &words)?,
            }
        }
        Some(chip)
    }

    /// A line of an entry: `X Y name` of a wire, `bits WIRE` of the switches to one.
    fn add(&mut self, entry: &Entry, words: &[&str]) -> Option<()> {
        match *entry {
            Entry::Wire(wire) => {
                let segment =
                    Segment { tile: (number(words, 0)?, number(words, 1)?), name: words.get(2)?.to_string() };
                self.wires.entry(wire).or_default().push(segment);
            }
            Entry::To(tile, to) => self.switches.push(Switch { tile, from: number(words, 1)?, to }),
            Entry::Other => {}
        }
        Some(())
    }
}

#[cfg(test)]
mod tests {
    use super::*;

    #[test]
    fn wires_and_switches() {
        let text = "# comment\n.device 1k 14 18 27682\n\n.net 7\n1 2 lutff_0/out\n1 3 neigh_op_top_0\n\n.buffer 1 3 9 B0[0] B0[1]\n01 7\n11 8\n\n.extra_bits\na 1 2\n";
        let chip = Chip::read(text).unwrap();
        let names: Vec<_> =
            chip.wires[&7].iter().map(|segment| (segment.tile, segment.name.as_str())).collect();
        assert_eq!(names, [((1, 2), "lutff_0/out"), ((1, 3), "neigh_op_top_0")]);
        let switches: Vec<_> =
            chip.switches.iter().map(|switch| (switch.tile, switch.from, switch.to)).collect();
        assert_eq!(switches, [((1, 3), 7, 9), ((1, 3), 8, 9)]);
        assert!(Chip::read(".net x\n").is_none());
    }
}
