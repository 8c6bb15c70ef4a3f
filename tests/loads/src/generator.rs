//! A plain generator, written from request 2.12 of 02-change-requests.md and its readings alone.

/// "seed, the first state"; a draw steps it.
struct Draws {
    state: u32,
}

impl Draws {
    /// "a draw of m steps it, divides it by 65,536 and takes the remainder by m"
    fn draw(&mut self, m: u32) -> u32 {
        let stepped = 1_664_525u64 * u64::from(self.state) + 1_013_904_223;
        self.state = (stepped & 0xffff_ffff) as u32;
        self.state / 65_536 % m
    }
}

/// The job's text: kinds for all nodes first, then three draws a node, then source and sink net by net.
fn job_text(seed: u32, nodes: u32, nets: u32) -> String {
    let quarter = nodes / 4;
    let mut draws = Draws { state: seed };
    let kinds: Vec<u32> = (0..nodes)
        .map(|node| match node {
            _ if node < quarter => 0,
            _ if node >= nodes - quarter => 1,
            _ => 4 + draws.draw(12),
        })
        .collect();
    let rows: Vec<Vec<u32>> = (0..nodes)
        .map(|node| {
            let mut row: Vec<u32> = (0..3).map(|_| draws.draw(nodes)).collect();
            row.retain(|&target| target != node);
            row.sort_unstable();
            row.dedup();
            row
        })
        .collect();
    let pins: Vec<(u32, u32)> =
        (0..nets).map(|_| (draws.draw(quarter), nodes - quarter + draws.draw(quarter))).collect();

    let edges: usize = rows.iter().map(Vec::len).sum();
    let mut text = format!("F,{nodes},{edges},{nets},100\n");
    for (node, kind) in kinds.iter().enumerate() {
        text += &format!("N,{node},{kind},1\n");
    }
    for (node, row) in rows.iter().enumerate() {
        for target in row {
            text += &format!("E,{node},{target}\n");
        }
    }
    for (net, (source, sink)) in pins.iter().enumerate() {
        text += &format!("S,{net},{source}\nT,{net},{sink}\n");
    }
    text
}

/// A field's number, if it has so many digits at most, no leading zero and lies within its bounds.
fn number(field: &[u8], digits: usize, low: u64, high: u64) -> Option<u32> {
    if field.is_empty() || field.len() > digits || !field.iter().all(u8::is_ascii_digit) {
        return None;
    }
    if field.len() > 1 && field[0] == b'0' {
        return None;
    }
    let value: u64 = std::str::from_utf8(field).ok()?.parse().ok()?;
    (low..=high).contains(&value).then_some(value as u32)
}

/// What the line asks for, or the place of the field for which it is turned away.
fn asked(input: &[u8]) -> Result<(u32, u32, u32), u32> {
    let bounds = [(10, 0, u64::from(u32::MAX)), (6, 8, 256), (6, 1, 64)];
    let mut values = [0; 3];
    let mut rest = input;
    for (place, (digits, low, high)) in bounds.into_iter().enumerate() {
        if place > 0 {
            // another field comes only after a comma
            rest = rest.strip_prefix(b",").ok_or(place as u32)?;
        }
        let end = rest.iter().position(|&b| b == b',' || b == b'\n').unwrap_or(rest.len());
        values[place] = number(&rest[..end], digits, low, high).ok_or(place as u32)?;
        rest = &rest[end..];
    }
    if rest != b"\n" {
        return Err(3);
    }
    Ok((values[0], values[1], values[2]))
}

/// What the program prints for its input.
pub fn shown(input: &[u8]) -> String {
    match asked(input) {
        Ok((seed, nodes, nets)) => job_text(seed, nodes, nets),
        Err(place) => format!("X,17,{place}\n"),
    }
}

#[cfg(test)]
mod tests {
    use super::*;

    #[test]
    fn the_smallest_load() {
        let lines =
            "F,8,19,1,100 N,0,0,1 N,1,0,1 N,2,4,1 N,3,14,1 N,4,4,1 N,5,10,1 N,6,1,1 N,7,1,1 E,0,1 E,0,4 \
             E,1,0 E,1,3 E,2,0 E,2,1 E,2,4 E,3,4 E,3,7 E,4,1 E,4,7 E,5,2 E,5,4 E,5,6 E,6,1 E,6,7 E,7,1 E,7,4 \
             E,7,5 S,0,1 T,0,6";
        let text: String = lines.split_whitespace().map(|line| format!("{line}\n")).collect();
        assert_eq!(shown(b"7,8,1\n"), text);
    }

    #[test]
    fn refusals() {
        for (input, place) in
            [("", 0), ("5", 1), ("5,8,1,9", 3), ("5,8,1\r\n", 2), ("5,8,1", 3), ("05,8,1\n", 0)]
        {
            assert_eq!(shown(input.as_bytes()), format!("X,17,{place}\n"), "{input:?}");
        }
    }
}
