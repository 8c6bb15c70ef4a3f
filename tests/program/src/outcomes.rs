//! What texts come to, counted, and what a whole run must come to.

use crate::expected;
use crate::feed::Way;
use job::Counts;

/// Every outcome that a whole run must come to. 5, 6 and 10 can't come: the reader's tables are sound, the work slice is enough for
/// all that the tables hold, and the router's logs are sound. Of 4 there are tables 1 and 4 alone, since no text has too many nets or sinks.
const EXPECTED: [&str; 33] = [
    "accepted in iteration 1",
    "accepted in iteration 2",
    "accepted in iteration 3 or later",
    "accepted in iteration 3 or later, with a P line",
    "accepted in iteration 3 or later, with a V,2 line",
    "accepted in iteration 3 or later, with a V,2,k line",
    "accepted, with branches of an earlier iteration",
    "accepted, with a J line",
    "accepted, timed",
    "accepted in iteration 3 or later, timed",
    "accepted, timed, with a J line",
    "X,1",
    "X,2",
    "X,3",
    "X,4,1",
    "X,4,4",
    "X,7",
    "X,8",
    "X,9",
    "X,9, with a P line",
    "X,9, with a V,2 line",
    "X,9, with a V,2,k line",
    "X,9, timed",
    "X,15",
    "X,11",
    "X,12",
    "drawn",
    "not drawn, 11",
    "not drawn",
    "by pipe",
    "by file",
    "in pieces",
    "byte by byte",
];

/// How often each outcome came.
#[derive(Default)]
pub struct Outcomes(Counts);

impl Outcomes {
    /// Prints the counts.
    pub fn print(&self) {
        self.0.print();
    }

    /// The outcomes of a whole run that did not come.
    pub fn missing(&self) -> Vec<&'static str> {
        self.0.missing(&EXPECTED)
    }

    /// Counts what a text is answered with.
    pub fn count_answer(&mut self, text: &[u8], printed: &[u8]) {
        let answer = name(printed);
        let holds = |line: &[u8]| text.windows(line.len()).any(|bytes| bytes == line);
        if matches!(&answer[..], "accepted in iteration 3 or later" | "X,9") {
            let lines = [(holds(b"\nP"), "P"), (holds(b"\nV,2\n"), "V,2"), (holds(b"\nV,2,"), "V,2,k")];
            for (_, name) in lines.iter().filter(|one| one.0) {
                self.0.count(format!("{answer}, with a {name} line"));
            }
            if holds(b"\nW\n") {
                self.0.count(format!("{answer}, timed"));
            }
        }
        if expected::keeps_tree(text) {
            self.0.count("accepted, with branches of an earlier iteration");
        }
        let timed = if holds(b"\nW\n") { ", timed" } else { "" };
        if printed.windows(2).any(|two| two == b"\nJ") {
            self.0.count(format!("accepted{timed}, with a J line"));
        }
        if answer.starts_with("accepted") && !timed.is_empty() {
            self.0.count("accepted, timed");
        }
        self.0.count(answer);
    }

    /// Counts what is answered in place of a picture, or the picture.
    pub fn count_picture(&mut self, printed: &[u8]) {
        self.0.count(match printed {
            [b'X', b',', b'1', b'1', b',', ..] => "not drawn, 11",
            [b'X', ..] => "not drawn",
            _ => "drawn",
        });
    }

    /// Counts the way that a text goes.
    pub fn count_way(&mut self, way: Way) {
        self.0.count(match way {
            Way::Pipe => "by pipe",
            Way::File => "by file",
            Way::Pieces(1) => "byte by byte",
            Way::Pieces(_) => "in pieces",
        });
    }
}

/// The name of an answer by its first line: how late it was accepted, or the refusal's number, with the table of 4.
fn name(printed: &[u8]) -> String {
    let line = printed.split(|byte| *byte == b'\n').next().unwrap_or_default();
    let line = String::from_utf8_lossy(line);
    let fields: Vec<&str> = line.split(',').collect();
    match fields[..] {
        ["R", "1", _] => String::from("accepted in iteration 1"),
        ["R", "2", _] => String::from("accepted in iteration 2"),
        ["R", _, _] => String::from("accepted in iteration 3 or later"),
        ["X", "4", table] => format!("X,4,{table}"),
        ["X", number, ..] => format!("X,{number}"),
        _ => format!("neither routes nor refusal: {line}"),
    }
}
