//! Kinds of nodes, as tables name them.

use arvumnao::kind;

/// The kind's name without its article.
pub fn name(kind: u8) -> String {
    let name = kind::name(kind);
    let bare = name.strip_prefix("a ").or_else(|| name.strip_prefix("an ")).unwrap_or(&name);
    bare.to_string()
}

/// A line of the library's counts.
pub struct Uses {
    pub kind: u8,
    pub uses: u64,
    pub capacity: u64,
}

impl Uses {
    pub fn name(&self) -> String {
        name(self.kind)
    }

    /// How much of the capacity is used, with one place after the point.
    pub fn percent(&self) -> String {
        format!("{:.1}", 100.0 * self.uses as f64 / self.capacity as f64)
    }
}

/// The lines `U,kind,uses,capacity` of the kinds that the block has.
pub fn uses(text: &str) -> Vec<Uses> {
    let line = |line: &str| {
        let numbers: Vec<u64> = line.split(',').skip(1).filter_map(|number| number.parse().ok()).collect();
        match numbers[..] {
            [kind, uses, capacity] if capacity > 0 => Some(Uses { kind: kind as u8, uses, capacity }),
            _ => None,
        }
    };
    text.lines().filter_map(line).collect()
}

#[cfg(test)]
mod tests {
    use super::*;

    #[test]
    fn kinds_that_the_block_has() {
        let rows = uses("U,0,1,3\nU,1,0,0\nU,4,2,2\n");
        let told: Vec<_> = rows.iter().map(|row| (row.kind, row.name(), row.percent())).collect();
        assert_eq!(
            told,
            [
                (0, String::from("source"), String::from("33.3")),
                (4, String::from("wire of length 1"), String::from("100.0"))
            ]
        );
    }
}
