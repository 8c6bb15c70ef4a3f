//! What a terminal shows of a run: a row for each iteration, and a bar if the run takes long.

use crate::console::{Colour, Console};
use arvumnao::Progress;
use std::time::{Duration, Instant};

/// A run that has taken this much time is long.
const LONG: Duration = Duration::from_secs(1);
/// The letters of a bar.
const BAR: usize = 30;

/// Erases the line that the cursor is in.
const ERASE: &str = "\r\x1b[K";

/// Watches one run.
pub struct Watch<'c> {
    console: &'c Console,
    limit: u32,
    begun: Instant,
    rows: usize,
    barred: bool,
}

impl<'c> Watch<'c> {
    pub fn new(console: &'c Console, limit: u32) -> Watch<'c> {
        Watch { console, limit, begun: Instant::now(), rows: 0, barred: false }
    }

    /// Shows an iteration that has just ended.
    pub fn row(&mut self, progress: &Progress) {
        if self.console.watched() {
            let text = self.text(progress, self.begun.elapsed());
            self.console.put(&text);
        }
    }

    /// What is shown of an iteration that ended this long after the run began.
    fn text(&mut self, progress: &Progress, elapsed: Duration) -> String {
        let mut text = String::from(if self.barred { ERASE } else { "" });
        if self.rows == 0 {
            text += &self.console.paint(Colour::Bold, HEAD);
            text += "\n";
        }
        self.rows += 1;
        text += &self.cells(progress);
        self.barred = progress.overfull > 0 && elapsed > LONG;
        if self.barred {
            let rest = format!("iteration {} of at most {}", progress.iteration, self.limit);
            text += &bar(progress.iteration as usize, self.limit as usize, &rest);
        }
        text
    }

    fn cells(&self, progress: &Progress) -> String {
        let Progress { iteration, factor, nets, turns, overfull, overuse, tree_cost, .. } = progress;
        let colour = if *overfull == 0 { Colour::Green } else { Colour::Yellow };
        let overfull = self.console.paint(colour, &format!("{overfull:>9}"));
        format!("{iteration:>9}{factor:>8}{nets:>6}{turns:>7}{overfull}{overuse:>9}{tree_cost:>11}\n")
    }
}

impl Drop for Watch<'_> {
    fn drop(&mut self) {
        if self.barred {
            self.console.put(ERASE);
        }
    }
}

const HEAD: &str = "iteration  factor  nets  turns overfull  overuse  tree cost";

/// A bar with what it says.
fn bar(done: usize, all: usize, rest: &str) -> String {
    let full = (BAR * done / all.max(1)).min(BAR);
    format!("[{}{}] {rest}", "#".repeat(full), "-".repeat(BAR - full))
}

/// Watches several jobs.
pub struct Jobs<'c> {
    console: &'c Console,
    all: usize,
    done: usize,
}

impl<'c> Jobs<'c> {
    pub fn new(console: &'c Console, all: usize) -> Jobs<'c> {
        Jobs { console, all, done: 0 }
    }

    /// Removes the bar, so that a line can be printed.
    pub fn erase(&self) {
        if self.shown() {
            self.console.put(ERASE);
        }
    }

    /// One more job is done.
    pub fn done(&mut self) {
        self.done += 1;
        if self.shown() {
            let rest = format!("{} of {} jobs", self.done, self.all);
            self.console.put(&format!("{ERASE}{}", bar(self.done, self.all, &rest)));
        }
    }

    fn shown(&self) -> bool {
        self.all > 1 && self.console.watched()
    }
}

impl Drop for Jobs<'_> {
    fn drop(&mut self) {
        self.erase();
    }
}

#[cfg(test)]
mod tests {
    use super::*;

    /// A run that takes long has a bar under its rows. The next row replaces it, and the end removes it.
    #[test]
    fn a_long_run_has_a_bar() {
        let console = Console::new(true);
        let mut watch = Watch::new(&console, 12);
        let progress = Progress {
            iteration: 6,
            factor: 168,
            nets: 3,
            turns: 4,
            overfull: 5,
            overuse: 7,
            tree_cost: 900,
        };
        let row = "        6     168     3      4        5        7        900\n";
        assert_eq!(watch.text(&progress, Duration::from_millis(10)), format!("{HEAD}\n{row}"));
        let under = format!("[{}{}] iteration 6 of at most 12", "#".repeat(15), "-".repeat(15));
        assert_eq!(watch.text(&progress, 2 * LONG), format!("{row}{under}"));
        let settled = Progress { overfull: 0, ..progress };
        assert!(watch.text(&settled, 2 * LONG).starts_with("\r\x1b[K        6     168"));
        assert!(!watch.barred);
    }

    #[test]
    fn bars() {
        assert_eq!(bar(0, 2, "x"), format!("[{}] x", "-".repeat(30)));
        assert_eq!(bar(1, 2, "x"), format!("[{}{}] x", "#".repeat(15), "-".repeat(15)));
        assert_eq!(bar(7, 2, "x"), format!("[{}] x", "#".repeat(30)));
    }
}
