//! The outcomes that calls come to, counted, and those that a whole run must come to.

use crate::compare::{self, idle, After, Answer, Case};
use crate::logs;
use crate::resumes::Lent;
use job::{texts, Counts, Job, Tuning};

/// Every outcome that a whole run must come to.
const EXPECTED: [&str; 438] = [
    "price accepted",
    "price 13,0",
    "price 13,1",
    "price 13,2",
    "price 13,3",
    "price 13,4",
    "search accepted",
    "search 5,1",
    "search 5,2",
    "search 5,3",
    "search 5,4",
    "search 6",
    "search 13",
    "route accepted",
    "route 5,1",
    "route 5,2",
    "route 5,3",
    "route 5,4",
    "route 5,5",
    "route 5,6",
    "route 5,7",
    "route 5,8",
    "route 6",
    "route 7",
    "route 8",
    "route 9",
    "resume accepted",
    "resume 5,1",
    "resume 5,2",
    "resume 5,3",
    "resume 5,4",
    "resume 5,5",
    "resume 5,6",
    "resume 5,7",
    "resume 5,8",
    "resume 6",
    "resume 7",
    "resume 8",
    "resume 9",
    "resume 14",
    "own log accepted",
    "own log 8",
    "own log 9",
    "log under a lower limit accepted",
    "log under a lower limit 8",
    "log under a lower limit 9",
    "straight run's end by a resume, accepted",
    "straight run's end by a resume, 8",
    "straight run's end by a resume, 9",
    "wandering log accepted",
    "wandering log 8",
    "wandering log 9",
    "wandering log 14",
    "log of other terms accepted",
    "log of other terms 14",
    "log of another job 14",
    "changed log accepted",
    "changed log 14",
    "log over another sink 14",
    "log through a tree 14",
    "log from outside a tree 14",
    "cut log 14",
    "no words 14",
    "whole log that settles 14",
    "whole log at the limit 14",
    "words beyond the log 14",
    "14 at the first record",
    "14 at a later record",
    "14 at a record of iteration 2 or later",
    "14 with the words used",
    "14 with the log's length",
    "log of rule 1 taken up",
    "log of rule 2 taken up below iteration k",
    "log of rule 2 taken up at iteration k",
    "log of rule 2 taken up after iteration k",
    "log with a tree kept taken up",
    "log of three iterations and more taken up",
    "log with costs over 32 bits taken up",
    "log of joined nets taken up",
    "lent log damaged word by word",
    "audit accepted",
    "audit 5,1",
    "audit 5,2",
    "audit 5,3",
    "audit 5,4",
    "audit 5,5",
    "audit 5,6",
    "audit 5,7",
    "audit 5,8",
    "audit 5,9",
    "audit 5,10",
    "audit 6",
    "audit 7",
    "audit 14",
    "audit 15 by nodes",
    "audit 15 by the limit",
    "audit 18",
    "audit of own log sound",
    "audit of own log cut behind a record sound",
    "audit of log with ties broken otherwise sound",
    "audit of log of a stale router not cheapest",
    "audit of log of a stale router sound",
    "audit of wandering log not cheapest",
    "audit of log of other terms not cheapest",
    "audit of changed log 14",
    "audit of words beyond the log 14",
    "audit of no words sound",
    "audit of a log that settles sound",
    "audit of two whole iterations and more not cheapest",
    "audit of two whole iterations and more sound",
    "audit of turns without a whole iteration not cheapest",
    "audit of turns without a whole iteration sound",
    "audit of a timed job not cheapest",
    "audit of a timed job sound",
    "audit of joined nets not cheapest",
    "audit of joined nets sound",
    "audit of a log with a tree kept not cheapest",
    "audit of a log with a tree kept sound",
    "audited log damaged word by word",
    "read accepted",
    "read 1",
    "read 2",
    "read 3",
    "read 4,1",
    "read 4,2",
    "read 4,3",
    "read 4,4",
    "read 4,5",
    "read 4,6",
    "read 4,7",
    "write accepted",
    "write 5,5",
    "write 10",
    "write 11",
    "dot accepted",
    "dot 5,5",
    "dot 10",
    "dot 11",
    "uses_add accepted",
    "uses_add 5,1",
    "uses_add 5,2",
    "uses_add 5,3",
    "uses_add 5,4",
    "uses_add 10",
    "uses_add 13",
    "uses_add 13,54",
    "uses_add 16",
    "uses_add with short counts",
    "uses_write accepted",
    "uses_write 5,1",
    "uses_write 5,2",
    "uses_write 5,3",
    "uses_write 5,4",
    "uses_write 11",
    "uses_write 13",
    "uses_write 13,54",
    "uses_write with short counts",
    "uses_add accepted, uses at their bound",
    "uses_add 13, uses one above their bound",
    "uses_add 13,54, 65,536 logs",
    "uses_add 16, 65,535 logs",
    "uses_write accepted, uses at their bound",
    "uses_write accepted, 65,535 logs",
    "uses_write 13, uses one above their bound",
    "uses_write 13,54, 65,536 logs",
    "log of rule 1 added",
    "log of rule 2 added",
    "log of another block added",
    "log of another block 10",
    "log of no job added",
    "log of no job 10",
    "changed log added",
    "changed log 10",
    "log with a tree kept added",
    "log with a node on two paths of a net added",
    "log with a node that the block lacks 10",
    "log damaged word by word",
    "run of 3 logs added in another order",
    "table 5 of the writer empty",
    "table 5 of the writer over 512",
    "table 5 of the writer with 4,096 or more",
    "table 5 of the writer unsound beside a log that is",
    "J lines written",
    "J line written without a record of the first",
    "record of a joined net 10",
    "record beyond table 5 10",
    "joined nets accepted",
    "joined nets 7",
    "joined nets 7 at a place beyond the first one's own sinks",
    "joined nets 8",
    "joined nets 9",
    "joined nets of three and more accepted",
    "joined nets with a sink repeated accepted",
    "joined nets with a sink repeated 7",
    "sound job accepted, iteration 6 to 20",
    "route at iteration 21 or later",
    "route with costs over 32 bits",
    "text of 4,096 sinks accepted",
    "text of 4,097 sinks 3",
    "search 13 with the node count",
    "search with a distance over 2^61",
    "tuning plain",
    "tuning first 0",
    "tuning first 1,000",
    "tuning down 1",
    "tuning down 2",
    "tuning down 3",
    "tuning down 4",
    "tuning up as down",
    "tuning up 8",
    "tuning step 1",
    "tuning step 2",
    "tuning not plain, accepted",
    "P line accepted",
    "P line 1,2",
    "P line 2,2",
    "P line 1,3",
    "rule 1 accepted, iteration 3 or later",
    "rule 2 accepted, iteration 3 or later",
    "rule 1 9",
    "rule 2 9",
    "rule 2 with a tree kept accepted",
    "rule 2 with a tree kept 8",
    "rule 2 with a tree kept 9",
    "rule 2 with a tree kept and dropped later",
    "rule 2 after iteration k over 1 with a tree kept accepted",
    "rule 2 after iteration k over 1 with a tree kept 9",
    "rule 2 up to iteration k alone accepted",
    "route 5,8 with a bad rule",
    "route 5,8 with a bad k",
    "terms of 0 entries",
    "terms of 1 entries",
    "terms of 2 entries",
    "terms of 3 entries",
    "terms of 4 entries",
    "terms of 5 entries",
    "terms of 6 entries",
    "terms of 7 entries",
    "terms of 8 entries",
    "terms of 9 entries",
    "terms of 10 entries",
    "V,1 line accepted",
    "V,2 line accepted",
    "V line 1,2",
    "V line 2,2",
    "V line 1,3",
    "V line 2,3",
    "V line 1,4",
    "V,2,k line accepted",
    "V,2,k line 2,2",
    "V,2,k line 2,3",
    "V,1,k line 1,2",
    "V,1,k line 1,3",
    "V line after a P line accepted",
    "V line after a P line 2,3",
    "branches of several iterations written",
    "branches of nets that change in an iteration written",
    "branches of a net that skips an iteration written",
    "source of kind 0 accepted",
    "source of kind 2 accepted",
    "sink of kind 1 accepted",
    "sink of kind 3 accepted",
    "source of kind 1 5,5",
    "source of kind 3 5,5",
    "source a wire 5,5",
    "sink of kind 0 5,7",
    "sink of kind 2 5,7",
    "sink a wire 5,7",
    "S line of kind 1 3",
    "S line of kind 3 3",
    "S line of a wire 3",
    "T line of kind 0 3",
    "T line of kind 2 3",
    "T line of a wire 3",
    "timed price accepted",
    "timed price 13,0",
    "timed price 13,1",
    "timed price 13,2",
    "timed price 13,3",
    "timed price 13,4",
    "timed price 13,5",
    "timed price 13,6",
    "timed search accepted",
    "timed search 5,1",
    "timed search 5,2",
    "timed search 5,3",
    "timed search 5,4",
    "timed search 5,9",
    "timed search 6",
    "timed search 13",
    "timed search 13 with the node count",
    "timed search 13 with the node count + 1",
    "timed search 15 by nodes",
    "timed search 15 before 6",
    "timed search 5,9 before 15",
    "timed search with a distance over 2^63",
    "route 5,9",
    "route 5,10",
    "route 15 by nodes",
    "route 15 by the limit",
    "route 15 by nodes and the limit",
    "resume 5,9",
    "resume 5,10",
    "resume 15 by nodes",
    "resume 15 by the limit",
    "read 4,9",
    "read 4,10",
    "read 15 by nodes",
    "read 15 by the limit",
    "timed job accepted",
    "timed job 7",
    "timed job 8",
    "timed job 9",
    "timed job 15",
    "timed job in iteration 3 or later accepted",
    "timed job with joined nets accepted",
    "timed job with joined nets 7",
    "timed job with a sink of two criticalities accepted",
    "timed job with a tree kept accepted",
    "timed job with a sink joined without a turn accepted",
    "timed job with costs over 32 bits 9",
    "timed job with a delay of 1,000 accepted",
    "timed job with a criticality of 9 accepted",
    "timed job with a limit of 40 accepted",
    "timed job of 1,024 nodes accepted",
    "untimed job with tables 9 and 10 accepted",
    "straight run's end by a resume, accepted, timed",
    "straight run's end by a resume, 8, timed",
    "straight run's end by a resume, 9, timed",
    "log out of turn 14",
    "log of a timed job taken up",
    "log of a timed job with joined nets taken up",
    "log of a timed job over another sink taken up",
    "W line accepted",
    "W line 1,2",
    "W line 1,3",
    "W line 1,4",
    "W line after a P line accepted",
    "W line after a V line accepted",
    "W line after P and V lines accepted",
    "N line of a timed text too short 1",
    "N line of a timed text too long 1",
    "N line of an untimed text too long 1",
    "N line of a timed text 2",
    "N line of a timed text one beyond its bound 2",
    "N line of a timed text 2 before 3",
    "T line of a timed text too short 1",
    "T line of a timed text too long 1",
    "T line of an untimed text too long 1",
    "T line of a timed text 2",
    "T line of a timed text one beyond its bound 2",
    "T line of a timed text 2 before 3",
    "aimed route accepted",
    "aimed route 5,1",
    "aimed route 5,2",
    "aimed route 5,3",
    "aimed route 5,4",
    "aimed route 5,5",
    "aimed route 5,6",
    "aimed route 5,7",
    "aimed route 5,8",
    "aimed route 5,9",
    "aimed route 5,10",
    "aimed route 6",
    "aimed route 7",
    "aimed route 8",
    "aimed route 9",
    "aimed route 15 by nodes",
    "aimed route 15 by the limit",
    "aimed route 15 by nodes and the limit",
    "aimed route of a timed job accepted",
    "aimed route of a timed job 8",
    "aimed route of a timed job 9",
    "aimed route of joined nets accepted",
    "aimed route of joined nets 8",
    "aimed route of joined nets 9",
    "aimed route with a tree kept accepted",
    "aimed route with a tree kept 8",
    "aimed route with a tree kept 9",
    "aimed route in iteration 3 or later accepted",
    "aimed route in iteration 3 or later 8",
    "aimed route in iteration 3 or later 9",
    "aimed route that expands the paths alone accepted",
    "aimed route that expands the paths alone 8",
    "aimed route that expands the paths alone 9",
    "aimed route that expands others too accepted",
    "aimed route that expands others too 8",
    "aimed route that expands others too 9",
    "aimed route with costs over 32 bits 8",
    "aimed route with costs over 32 bits 9",
    "aimed route without a turn 8",
    "aimed route that expands every node accepted",
    "aimed resume accepted",
    "aimed resume 5,1",
    "aimed resume 5,2",
    "aimed resume 5,3",
    "aimed resume 5,4",
    "aimed resume 5,5",
    "aimed resume 5,6",
    "aimed resume 5,7",
    "aimed resume 5,8",
    "aimed resume 5,9",
    "aimed resume 5,10",
    "aimed resume 6",
    "aimed resume 7",
    "aimed resume 8",
    "aimed resume 9",
    "aimed resume 14",
    "aimed resume 15 by the limit",
    "aimed resume of a timed job accepted",
    "aimed resume of a timed job 8",
    "aimed resume of a timed job 9",
    "aimed resume of joined nets accepted",
    "aimed resume of joined nets 8",
    "aimed resume of joined nets 9",
    "aimed resume with a tree kept accepted",
    "aimed resume with a tree kept 8",
    "aimed resume with a tree kept 9",
    "aimed resume in iteration 3 or later accepted",
    "aimed resume in iteration 3 or later 8",
    "aimed resume in iteration 3 or later 9",
    "aimed resume that expands the paths alone accepted",
    "aimed resume that expands the paths alone 8",
    "aimed resume that expands the paths alone 9",
    "aimed resume that expands others too accepted",
    "aimed resume that expands others too 8",
    "aimed resume that expands others too 9",
    "aimed resume with costs over 32 bits 8",
    "aimed resume with costs over 32 bits 9",
    "aimed resume without a turn 8",
    "out of 15 entries",
    "out of 16 entries",
    "out of 17 entries",
    "window under rule 1,1 accepted",
    "window under rule 2,1 accepted",
    "window under rule 2,3 accepted",
    "nets over the window accepted",
    "nets over the window 9",
];

/// How often each outcome came.
#[derive(Default)]
pub struct Outcomes(Counts);

impl Outcomes {
    /// Prints the counts.
    pub fn print(&self) {
        self.0.print();
    }

    /// The outcomes of a whole run that did not come.
    pub fn missing(&self) -> Vec<&'static str> {
        self.0.missing(&EXPECTED)
    }

    /// Counts an outcome.
    pub fn count(&mut self, outcome: impl Into<String>) {
        self.0.count(outcome);
    }

    /// Counts how a call ends.
    pub fn count_call(&mut self, after: &After) {
        let call = match &after.case {
            Case::Price { timing: None, .. } => "price",
            Case::Price { .. } => "timed price",
            Case::Search { graph, work, criticality, .. } => {
                let call = if criticality.is_some() { "timed search" } else { "search" };
                self.count_search(call, after, graph.kind.len(), work);
                call
            }
            Case::Route { used: None, aimed: true, .. } => "aimed route",
            Case::Route { used: Some(_), aimed: true, .. } => "aimed resume",
            Case::Route { used: Some(_), .. } => "resume",
            Case::Route { job, log, .. } => {
                self.count_route(after, job, log);
                self.count_pins(after, job);
                self.count_joined(after, job);
                "route"
            }
            Case::Audit { .. } => "audit",
            Case::Read { text, .. } => {
                self.count_pin_line(after, text);
                self.count_term_lines(after, text);
                self.count_timed_lines(after, text);
                "read"
            }
            Case::Write { picture, source, log, .. } => {
                self.count_write(after, source, log);
                if *picture {
                    "dot"
                } else {
                    "write"
                }
            }
            Case::AddUses { .. } => "uses_add",
            Case::WriteUses { .. } => "uses_write",
        };
        let outcome = match after.answer.refusal[..] {
            [] if idle(&after.case) => format!("{call} with short counts"),
            [] => format!("{call} accepted"),
            [number @ (4 | 5), table] => format!("{call} {number},{table}"),
            [13, place] if call.ends_with("price") => format!("{call} 13,{place}"),
            [15, nodes, limit] => format!("{call} 15{}", too_large(nodes, limit)),
            [13, 54] if call.starts_with("uses") => format!("{call} 13,54"),
            [number, ..] => format!("{call} {number}"),
        };
        self.count_bounds(after, &outcome);
        self.count(outcome);
    }

    /// Counts what an aimed call comes to once its turns begin: whom it routes, and how many nodes it expands.
    pub fn count_aimed(&mut self, after: &After) {
        let Answer { refusal, numbers } = &after.answer;
        let Case::Route { job, used, log, .. } = &after.case else { return };
        if !matches!(refusal.first(), None | Some(8 | 9)) {
            return;
        }
        let (call, end) = (if used.is_some() { "aimed resume" } else { "aimed route" }, end(after));
        let log = &log[used.unwrap_or(0) as usize..numbers[2] as usize];
        let turns = logs::records(log).len() as u64 - 1;
        let paths = log.len() as u64 - 6 * turns;
        let short = log.len() < 3_000;
        let names = [
            (job.is_timed(), "of a timed job"),
            (logs::has_joined(&job.source), "of joined nets"),
            (short && job.rule == 2 && logs::passes_over(log), "with a tree kept"),
            (logs::has_long_cost(log), "with costs over 32 bits"),
            (numbers[0] > 2, "in iteration 3 or later"),
            (turns == 0, "without a turn"),
            (turns > 0 && numbers[3] == turns * job.kind.len() as u64, "that expands every node"),
            (turns > 0 && numbers[3] == paths, "that expands the paths alone"),
            (numbers[3] > paths && numbers[3] < turns * job.kind.len() as u64, "that expands others too"),
        ];
        for (_, name) in names.into_iter().filter(|name| name.0) {
            self.count(format!("{call} {name} {end}"));
        }
    }

    /// Counts which bounds of counts a call comes to.
    fn count_bounds(&mut self, after: &After, outcome: &str) {
        let (Case::AddUses { graph, counts, logs, .. } | Case::WriteUses { graph, counts, logs, .. }) =
            &after.case
        else {
            return;
        };
        if idle(&after.case) {
            return;
        }
        let nodes = |kind: usize| graph.kind.iter().filter(|one| **one as usize == kind).count() as u64;
        let bound = |kind: usize| 512 * logs * nodes(kind);
        match after.answer.refusal[..] {
            [] if (0..54).any(|kind| bound(kind) > 0 && counts[kind] >= bound(kind)) => {
                self.count(format!("{outcome}, uses at their bound"));
            }
            [13, kind @ 0..54] if counts[kind as usize] == bound(kind as usize) + 1 => {
                self.count(format!("{outcome}, uses one above their bound"));
            }
            _ => {}
        }
        if matches!(after.answer.refusal.first(), Some(5 | 10 | 11)) {
            return;
        }
        match logs {
            65_535 => self.count(format!("{outcome}, 65,535 logs")),
            65_536 => self.count(format!("{outcome}, 65,536 logs")),
            _ => {}
        }
    }

    /// Counts what becomes of a log that is added to counts.
    pub fn count_added(&mut self, name: &str, log: &[u32], after: &After) {
        let Case::AddUses { graph, .. } = &after.case else { return };
        match after.answer.refusal[..] {
            [] => {
                self.count(format!("{name} added"));
                let kinds = [
                    (logs::keeps_tree(log), "a tree kept"),
                    (logs::forks(log), "a node on two paths of a net"),
                ];
                for (_, kind) in kinds.into_iter().filter(|kind| kind.0) {
                    self.count(format!("log with {kind} added"));
                }
            }
            [number, word] => {
                self.count(format!("{name} {number}"));
                if number == 10 && logs::lacks(&log[word as usize..], graph.kind.len()) {
                    self.count("log with a node that the block lacks 10");
                }
            }
            _ => {}
        }
    }

    /// Counts what becomes of a log that a run is to go on from.
    pub fn count_resumed(&mut self, lent: &Lent, after: &After) {
        let whole = match (lent.name, after.answer.refusal.first()) {
            ("whole log", Some(14)) if logs::last_iteration(&lent.words) == lent.job.limit => " at the limit",
            ("whole log", Some(14)) => " that settles",
            _ => "",
        };
        self.count(format!("{}{whole} {}", lent.name, end(after)));
        match after.answer.refusal[..] {
            [14, word] => self.count_diverging(lent, word),
            [5..=7 | 15, ..] => {}
            _ => self.count_taken_up(lent),
        }
    }

    /// Counts what an audit finds in a log.
    pub fn count_audited(&mut self, lent: &Lent, after: &After) {
        let numbers = &after.answer.numbers;
        let end = match after.answer.refusal.first() {
            None => String::from("sound"),
            Some(18) => String::from("not cheapest"),
            Some(number) => number.to_string(),
        };
        self.count(format!("audit of {} {end}", lent.name));
        let told = matches!(after.answer.refusal.first(), None | Some(18));
        let names = [
            (lent.used == 0, "no words"),
            (told && lent.job.is_timed(), "a timed job"),
            (told && lent.job.rule == 2 && logs::passes_over(&lent.words), "a log with a tree kept"),
            (told && logs::has_joined(&lent.job.source), "joined nets"),
            (told && numbers[1] > 0 && numbers[2] == 0, "a log that settles"),
            (told && numbers[1] > 1, "two whole iterations and more"),
            (told && numbers[0] > 0 && numbers[1] == 0, "turns without a whole iteration"),
        ];
        for (_, name) in names.into_iter().filter(|name| name.0) {
            self.count(format!("audit of {name} {end}"));
        }
    }

    /// Counts where a log doesn't follow the job.
    fn count_diverging(&mut self, lent: &Lent, word: u64) {
        self.count(match word {
            _ if lent.used > lent.words.len() as u64 => "14 with the log's length",
            _ if word == lent.used => "14 with the words used",
            0 => "14 at the first record",
            _ if lent.words[word as usize] > 1 => "14 at a record of iteration 2 or later",
            _ => "14 at a later record",
        });
    }

    /// Counts what is taken up.
    fn count_taken_up(&mut self, lent: &Lent) {
        let (job, last) = (&lent.job, logs::last_iteration(&lent.words));
        let rule = match last.cmp(&job.until) {
            _ if job.rule == 1 => "log of rule 1",
            std::cmp::Ordering::Less => "log of rule 2 taken up below iteration k",
            std::cmp::Ordering::Equal => "log of rule 2 taken up at iteration k",
            std::cmp::Ordering::Greater => "log of rule 2 taken up after iteration k",
        };
        let names = [
            (logs::passes_over(&lent.words), "log with a tree kept"),
            (last >= 3, "log of three iterations and more"),
            (logs::has_long_cost(&lent.words), "log with costs over 32 bits"),
            (logs::has_joined(&job.source), "log of joined nets"),
            (job.is_timed(), "log of a timed job"),
            (job.is_timed() && logs::has_joined(&job.source), "log of a timed job with joined nets"),
            (job.is_timed() && logs::passes_sink(job, &lent.words), "log of a timed job over another sink"),
        ];
        self.count(if job.rule == 1 { format!("{rule} taken up") } else { String::from(rule) });
        for (_, name) in names.into_iter().filter(|name| name.0) {
            self.count(format!("{name} taken up"));
        }
    }

    /// Counts what few searches come to.
    fn count_search(&mut self, call: &str, after: &After, nodes: usize, work: &[u64]) {
        let refusal = &after.answer.refusal;
        let far = work[..nodes.min(work.len())].iter().copied().filter(|far| *far != u64::MAX).max();
        for (bound, name) in [(1 << 61, "2^61"), (1 << 63, "2^63")] {
            if refusal.is_empty() && far.is_some_and(|far| far > bound) {
                self.count(format!("{call} with a distance over {name}"));
            }
        }
        match refusal[..] {
            [15, ..] if work.len() < 8 * nodes => self.count(format!("{call} 15 before 6")),
            [5, 9] if nodes > 1_024 => self.count(format!("{call} 5,9 before 15")),
            _ => {}
        }
        if *refusal == [13, nodes as u64] {
            self.count(format!("{call} 13 with the node count"));
        }
        if *refusal == [13, nodes as u64 + 1] {
            self.count(format!("{call} 13 with the node count + 1"));
        }
    }

    /// Counts how a sound job with nets of one source ends.
    fn count_joined(&mut self, after: &After, job: &Job) {
        let refusal = &after.answer.refusal;
        if matches!(refusal.first(), Some(5 | 6 | 15)) || !logs::has_joined(&job.source) {
            return;
        }
        let end = end(after);
        self.count(format!("joined nets {end}"));
        let same = |net: usize| job.source.iter().filter(move |other| **other == job.source[net]).count();
        if (0..job.source.len()).any(|net| same(net) > 2) {
            self.count(format!("joined nets of three and more {end}"));
        }
        if (0..job.source.len()).any(|net| logs::repeats_sink(job, net)) {
            self.count(format!("joined nets with a sink repeated {end}"));
        }
        if let [7, net, place] = refusal[..] {
            if place as usize >= job.sinks(net as usize).len() {
                self.count("joined nets 7 at a place beyond the first one's own sinks");
            }
        }
    }

    /// Counts what table 5 and the nets of a log come to in the writer.
    fn count_write(&mut self, after: &After, source: &[u16], log: &[u32]) {
        if after.answer.refusal.is_empty() {
            self.count_branches(log);
        }
        let records = logs::records(log);
        let net = |place: &usize| log.get(place + 1).map_or(usize::MAX, |net| *net as usize);
        match after.answer.refusal[..] {
            [] if logs::has_joined(source) => {
                self.count("J lines written");
                let nets: Vec<usize> = records[..records.len() - 1].iter().map(net).collect();
                let mut firsts = logs::joined(source).into_iter().map(|net| logs::first_of(source, net));
                if firsts.any(|first| !nets.contains(&first)) {
                    self.count("J line written without a record of the first");
                }
            }
            [5, _] => self.count_source(source, log),
            [10, word] if records[..records.len() - 1].contains(&(word as usize)) => {
                let net = net(&(word as usize));
                if net >= source.len() {
                    self.count("record beyond table 5 10");
                } else if logs::first_of(source, net) != net {
                    self.count("record of a joined net 10");
                }
            }
            _ => {}
        }
    }

    /// Counts what the order of a log's records comes to in its text.
    fn count_branches(&mut self, log: &[u32]) {
        let names = [
            (logs::keeps_tree(log), "of several iterations"),
            (logs::interleaves(log), "of nets that change in an iteration"),
            (logs::skips_iteration(log), "of a net that skips an iteration"),
        ];
        for (_, name) in names.into_iter().filter(|name| name.0) {
            self.count(format!("branches {name} written"));
        }
    }

    /// Counts why the writer refuses table 5.
    fn count_source(&mut self, source: &[u16], log: &[u32]) {
        let why = match source.len() {
            0 => "empty",
            1..=512 => "with 4,096 or more",
            _ => "over 512",
        };
        self.count(format!("table 5 of the writer {why}"));
        if log.is_empty() || log[0] == 0 || log[0] > 100 {
            self.count("table 5 of the writer unsound beside a log that is");
        }
    }

    /// Counts the kinds of accepted pins, and that of the first pin that its table doesn't allow.
    fn count_pins(&mut self, after: &After, job: &Job) {
        let kinds = |pins: &[u16]| -> Vec<u8> {
            pins.iter().filter_map(|pin| job.kind.get(*pin as usize)).copied().collect()
        };
        let (sources, sinks) = (kinds(&job.source), kinds(&job.sink));
        match after.answer.refusal[..] {
            [] => {
                for (name, kind) in [("source", sources[0]), ("sink", sinks[0])] {
                    self.count(format!("{name} {} accepted", kind_name(kind, "a wire")));
                }
            }
            [5, 5] if sources.len() == job.source.len() => {
                if let Some(kind) = sources.into_iter().find(|kind| ![0, 2].contains(kind)) {
                    self.count(format!("source {} 5,5", kind_name(kind, "a wire")));
                }
            }
            [5, 7] if sinks.len() == job.sink.len() => {
                if let Some(kind) = sinks.into_iter().find(|kind| ![1, 3].contains(kind)) {
                    self.count(format!("sink {} 5,7", kind_name(kind, "a wire")));
                }
            }
            _ => {}
        }
    }

    /// Counts the kind of a pin whose line is refused, as far as the kind may be why.
    fn count_pin_line(&mut self, after: &After, text: &[u8]) {
        let [3, line] = after.answer.refusal[..] else { return };
        match texts::pin(text, line) {
            Some((b'S', 0 | 2)) | Some((b'T', 1 | 3)) | None => {}
            Some((letter, kind)) => {
                self.count(format!("{} line {} 3", letter as char, kind_name(kind, "of a wire")));
            }
        }
    }

    /// Counts how a text with P, V or W lines ends, as far as that may be the lines' doing.
    fn count_term_lines(&mut self, after: &After, text: &[u8]) {
        let holds = |begin: &[u8]| text.windows(begin.len()).any(|bytes| bytes == begin);
        let after_tuning = holds(b"\nP") && holds(b"\nV");
        let names = [
            (holds(b"\nP"), "P line"),
            (holds(b"\nV"), "V line"),
            (holds(b"\nW"), "W line"),
            (holds(b"\nP") && !holds(b"\nV") && holds(b"\nW"), "W line after a P line"),
            (!holds(b"\nP") && holds(b"\nV") && holds(b"\nW"), "W line after a V line"),
            (after_tuning && holds(b"\nW"), "W line after P and V lines"),
            (holds(b"\nV,1\n"), "V,1 line"),
            (holds(b"\nV,2\n"), "V,2 line"),
            (holds(b"\nV,1,"), "V,1,k line"),
            (holds(b"\nV,2,"), "V,2,k line"),
            (after_tuning, "V line after a P line"),
        ];
        for (_, name) in names.into_iter().filter(|name| name.0) {
            match after.answer.refusal[..] {
                [] => self.count(format!("{name} accepted")),
                [number @ (1 | 2), line @ (2..=4)] => self.count(format!("{name} {number},{line}")),
                _ => {}
            }
        }
    }

    /// Counts which delay or criticality a text is refused for, as far as it can be told from the line.
    fn count_timed_lines(&mut self, after: &After, text: &[u8]) {
        let [number @ (1 | 2), line] = after.answer.refusal[..] else { return };
        let lines: Vec<&[u8]> = text.split(|byte| *byte == b'\n').collect();
        let fields = |line: &[u8]| -> Option<Vec<u64>> {
            let fields = line.split(|byte| *byte == b',').skip(1);
            fields.map(|field| std::str::from_utf8(field).ok()?.parse().ok()).collect()
        };
        let Some(at) = lines.get(line as usize - 1) else { return };
        let Some(found) = fields(at) else { return };
        let timed = lines[..line as usize - 1].contains(&&b"W"[..]);
        let (name, count, most) = match at.first() {
            Some(b'N') => ("N line", 3, 1_000),
            Some(b'T') => ("T line", 2, 9),
            _ => return,
        };
        match (number, timed) {
            (1, true) if found.len() == count => self.count(format!("{name} of a timed text too short 1")),
            (1, true) if found.len() == count + 2 => self.count(format!("{name} of a timed text too long 1")),
            (1, false) if found.len() == count + 1 => {
                self.count(format!("{name} of an untimed text too long 1"))
            }
            (2, true) if found.last().is_some_and(|last| *last > most) => {
                self.count(format!("{name} of a timed text 2"));
                if found.last() == Some(&(most + 1)) {
                    self.count(format!("{name} of a timed text one beyond its bound 2"));
                }
                if refusal_without(&lines, line) == [3, line] {
                    self.count(format!("{name} of a timed text 2 before 3"));
                }
            }
            _ => {}
        }
    }

    /// Counts how a timed job that is else sound ends, and an untimed one that is lent tables 9 and 10.
    pub fn count_timed(&mut self, job: &Job, after: &After) {
        let (iteration, words) = (after.answer.numbers[0], after.answer.numbers[2] as usize);
        let Case::Route { log, .. } = &after.case else { return };
        let (log, end) = (&log[..words], end(after));
        if !job.is_timed() {
            if !job.delay.is_empty() && !job.criticality.is_empty() {
                self.count(format!("untimed job with tables 9 and 10 {end}"));
            }
            return;
        }
        let bounds = [job.delay.contains(&1_000), job.criticality.contains(&9), job.limit == 40];
        let short = words < 3_000;
        let names = [
            (true, ""),
            (iteration > 2, " in iteration 3 or later"),
            (logs::has_joined(&job.source), " with joined nets"),
            (unlike_listings(job), " with a sink of two criticalities"),
            (short && job.rule == 2 && logs::passes_over(log), " with a tree kept"),
            (short && logs::passes_sink(job, log), " with a sink joined without a turn"),
            (logs::has_long_cost(log), " with costs over 32 bits"),
            (bounds[0], " with a delay of 1,000"),
            (bounds[1], " with a criticality of 9"),
            (bounds[2], " with a limit of 40"),
            (job.kind.len() == 1_024, " of 1,024 nodes"),
        ];
        for (_, name) in names.into_iter().filter(|name| name.0) {
            self.count(format!("timed job{name} {end}"));
        }
    }

    /// Counts how a sound job ends under its rule, and what rule 2 leaves standing.
    pub fn count_rule(&mut self, job: &Job, after: &After) {
        let (iteration, words) = (after.answer.numbers[0], after.answer.numbers[2] as usize);
        let Case::Route { log, .. } = &after.case else { return };
        let (rule, end) = (job.rule, end(after));
        let late = if end == "accepted" && iteration > 2 { ", iteration 3 or later" } else { "" };
        self.count(format!("rule {rule} {end}{late}"));
        if rule == 2 && words < 3_000 && logs::passes_over(&log[..words]) {
            self.count(format!("rule 2 with a tree kept {end}"));
            if job.until > 1 {
                self.count(format!("rule 2 after iteration k over 1 with a tree kept {end}"));
            }
        }
        if rule == 2 && iteration > 1 && iteration <= job.until.into() {
            self.count(format!("rule 2 up to iteration k alone {end}"));
        }
        if rule == 2 && logs::skips_iteration(&log[..words]) {
            self.count("rule 2 with a tree kept and dropped later");
        }
    }

    /// Counts a sound job's tuning, if the job comes to an iteration in which all of it counts.
    pub fn count_tuning(&mut self, tuning: Tuning, after: &After) {
        if after.answer.numbers[0] < 3 {
            return;
        }
        let Tuning { first, up, down, step } = tuning;
        if tuning == Tuning::PLAIN {
            self.count("tuning plain");
        } else if after.answer.refusal.is_empty() {
            self.count("tuning not plain, accepted");
        }
        let bounds = [
            (first == 0, "first 0"),
            (first == 1_000, "first 1,000"),
            (up == down, "up as down"),
            (up == 8, "up 8"),
        ];
        for (_, name) in bounds.into_iter().filter(|bound| bound.0) {
            self.count(format!("tuning {name}"));
        }
        self.count(format!("tuning down {down}"));
        self.count(format!("tuning step {step}"));
    }

    /// Counts what only long negotiations come to, and bad terms.
    fn count_route(&mut self, after: &After, job: &Job, log: &[u32]) {
        if after.answer.refusal == [5, 8] && !matches!(job.rule, 1 | 2) {
            self.count("route 5,8 with a bad rule");
        }
        if after.answer.refusal == [5, 8] && !matches!(job.until, 1..=99) {
            self.count("route 5,8 with a bad k");
        }
        let (iteration, words) = (after.answer.numbers[0], after.answer.numbers[2] as usize);
        if iteration >= 21 {
            self.count("route at iteration 21 or later");
        }
        let log = &log[..words];
        if logs::has_long_cost(log) {
            self.count("route with costs over 32 bits");
        }
    }

    /// Counts how a sound job ends.
    pub fn count_whole(&mut self, after: &After) {
        let iterations = match after.answer.numbers[0] {
            0 => "",
            1 => ", iteration 1",
            2 => ", iteration 2",
            3..=5 => ", iteration 3 to 5",
            6..=20 => ", iteration 6 to 20",
            _ => ", iteration 21 or later",
        };
        self.count(match after.answer.refusal.first() {
            None => format!("sound job accepted{iterations}"),
            Some(number) => format!("sound job {number}{iterations}"),
        });
    }
}

/// How a call ends: accepted, or the refusal's number.
pub fn end(after: &After) -> String {
    after.answer.refusal.first().map_or(String::from("accepted"), u64::to_string)
}

/// What the plain reader refuses a text for if the last number of one of its lines is 0.
fn refusal_without(lines: &[&[u8]], line: u64) -> Vec<u64> {
    let mut lines: Vec<Vec<u8>> = lines.iter().map(|line| line.to_vec()).collect();
    let changed = &mut lines[line as usize - 1];
    let last = changed.iter().rposition(|byte| *byte == b',').map_or(0, |comma| comma + 1);
    changed.splice(last.., *b"0");
    let case = Case::Read { text: lines.join(&b'\n'), tables: Job::unread([0; 9]) };
    compare::plain(&case).answer.refusal
}

/// Which of a timed job's two bounds is passed; a search has no limit.
fn too_large(nodes: u64, limit: u64) -> &'static str {
    match (nodes > 1_024, limit > 40) {
        (true, true) => " by nodes and the limit",
        (true, false) => " by nodes",
        _ => " by the limit",
    }
}

/// Whether nets of one source list a sink with different criticalities.
fn unlike_listings(job: &Job) -> bool {
    let listings = (0..job.source.len()).flat_map(|net| {
        let places = job.first_sink[net] as usize..job.first_sink[net + 1] as usize;
        places.map(move |place| (job.source[net], job.sink[place], job.criticality[place]))
    });
    let mut first = std::collections::BTreeMap::new();
    let mut unlike = false;
    for (source, sink, criticality) in listings {
        unlike |= *first.entry((source, sink)).or_insert(criticality) != criticality;
    }
    unlike
}

/// Words for a pin's kind, the same for all wires.
fn kind_name(kind: u8, wire: &str) -> String {
    if kind < 4 {
        format!("of kind {kind}")
    } else {
        String::from(wire)
    }
}
