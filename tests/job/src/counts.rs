//! How often each outcome of a long run came.

use std::collections::BTreeMap;

#[derive(Default)]
pub struct Counts(BTreeMap<String, u64>);

impl Counts {
    /// Counts an outcome.
    pub fn count(&mut self, outcome: impl Into<String>) {
        *self.0.entry(outcome.into()).or_insert(0) += 1;
    }

    /// Prints the counts.
    pub fn print(&self) {
        for (outcome, count) in &self.0 {
            println!("{count:>9}  {outcome}");
        }
    }

    /// Those of the outcomes that did not come.
    pub fn missing<'a>(&self, expected: &[&'a str]) -> Vec<&'a str> {
        expected.iter().copied().filter(|outcome| !self.0.contains_key(*outcome)).collect()
    }
}

#[cfg(test)]
mod tests {
    use super::*;

    #[test]
    fn what_did_not_come_is_missing() {
        let mut counts = Counts::default();
        counts.count("two");
        counts.count(String::from("four"));
        assert_eq!(counts.missing(&["one", "two", "three"]), ["one", "three"]);
    }
}
