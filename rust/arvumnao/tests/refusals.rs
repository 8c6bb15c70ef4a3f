//! Every refusal in its numbers and its sentence.

use arvumnao::{
    kind, Block, Congestion, Job, LineFault, Log, Nets, Overfull, Refusal, Terms, Timing, Use, UseCounts,
};

const JOB_B: &str = include_str!("../../../examples/job_b.txt");
const TIMED: &str = include_str!("../../../examples/timed.txt");

/// A text with one line put in the place of another.
fn with(text: &str, from: &str, to: &str) -> String {
    let other = text.replace(from, to);
    assert_ne!(other, text);
    other
}

/// Job B with one line put in the place of another.
fn changed(from: &str, to: &str) -> String {
    with(JOB_B, from, to)
}

fn refused(text: &str, numbers: [u64; 2], sentence: &str) {
    let refusal = Job::read(text.as_bytes()).unwrap_err();
    assert_eq!((refusal.numbers(), refusal.to_string()), (numbers.to_vec(), String::from(sentence)));
}

#[test]
fn lines_that_are_due() {
    refused("", [1, 1], "line 1: the text ends where the F line should come");
    refused("F,6,6,2,2", [1, 1], "line 1: the last line is not ended by LF: \"F,6,6,2,2\"");
    refused(
        "F,6,6,2,2\n",
        [1, 2],
        "line 2: the text ends where a P line, a V line, a W line or the N line of node 0 should come",
    );
    refused(
        "F,6,6,2,2\nP,50,3,2,1\nP,50,3,2,1\n",
        [1, 3],
        "line 3: begins with 'P' where a V line, a W line or the N line of node 0 should come: \"P,50,3,2,1\"",
    );
    refused(
        "F,6,6,2,2\nV,2\nP,50,3,2,1\n",
        [1, 3],
        "line 3: begins with 'P' where a W line or the N line of node 0 should come: \"P,50,3,2,1\"",
    );
    refused(
        "F,6,6,2,2\nV,2,1,1\n",
        [1, 2],
        "line 2: has 3 numbers, where V takes 1 to 2: rule, k: \"V,2,1,1\"",
    );
    refused("F,6,6,2,2\nV,2,\n", [1, 2], "line 2: k has no digits: \"V,2,\"");
    refused(
        "F,6,6,2,2\nV,1,1\n",
        [1, 2],
        "line 2: has a second number, which rule 1 does not take: \"V,1,1\"",
    );
    refused(
        &changed("N,2,4,1\n", "\n"),
        [1, 4],
        "line 4: an empty line where the N line of node 2 should come: \"\"",
    );
    refused(
        &changed("E,1,2\n", "T,1,2\n"),
        [1, 10],
        "line 10: begins with 'T' where E line 3 of 6 should come: \"T,1,2\"",
    );
    refused(
        &changed("T,0,4\nS,1,1\n", "S,1,1\n"),
        [1, 15],
        "line 15: net 0 has no sink: begins with 'S' where a T line of net 0 should come: \"S,1,1\"",
    );
    refused(
        &changed("T,1,5\n", ""),
        [1, 17],
        "line 17: net 1 has no sink: the text ends where a T line of net 1 should come",
    );
    refused(
        &format!("\u{feff}{JOB_B}"),
        [1, 1],
        "line 1: begins with a byte order mark, which a job text doesn't have, where the F line should come: \
         \"\\xef\\xbb\\xbfF,6,6,2,2\"",
    );
    refused(
        &changed("T,1,5\n", "T,1,5\nS,2,0\n"),
        [1, 18],
        "line 18: begins with 'S' where a T line of net 1 or the end of the text should come: \"S,2,0\"",
    );
    refused(
        &changed("S,1,1\nT,1,5\n", ""),
        [1, 16],
        "line 16: the text ends where a T line of net 0 or the S line of net 1 should come",
    );
}

#[test]
fn digits_and_commas() {
    refused(
        &changed("T,0,4\n", "T,0,4\r\n"),
        [1, 15],
        "line 15: a carriage return after node: lines end in LF alone: \"T,0,4\\r\"",
    );
    refused(
        &changed("N,2,4,1\n", "N,2, 4,1\n"),
        [1, 4],
        "line 4: a blank in kind, where only digits may stand: \"N,2, 4,1\"",
    );
    refused(&changed("N,2,4,1\n", "N,2,04,1\n"), [1, 4], "line 4: kind has a leading zero: \"N,2,04,1\"");
    refused(&changed("N,2,4,1\n", "N,2,,1\n"), [1, 4], "line 4: kind has no digits: \"N,2,,1\"");
    refused(
        &changed("N,2,4,1\n", "N,2,4,1000000\n"),
        [1, 4],
        "line 4: capacity has more than 6 digits: \"N,2,4,1000000\"",
    );
    refused(
        &changed("N,2,4,1\n", "N,2,4\n"),
        [1, 4],
        "line 4: has 2 numbers, where N takes 3: node, kind, capacity: \"N,2,4\"",
    );
    refused(
        &changed("N,2,4,1\n", "N2,4,1\n"),
        [1, 4],
        "line 4: the letter N is not followed by a comma: \"N2,4,1\"",
    );
}

/// Lines are counted from 1.
#[test]
fn no_line_0() {
    for number in 1..=3 {
        let fault = LineFault::find(b"F,0,1,1,1\n", number, 0);
        assert_eq!(fault, LineFault { number, line: 0, quoted: None, reason: None, column: None });
    }
}

#[test]
fn a_long_line_is_quoted_in_part() {
    let text = "F,".repeat(50);
    let refusal = Job::read(text.as_bytes()).unwrap_err();
    let quoted = format!("\"{}..\"", "F,".repeat(40));
    assert_eq!(refusal.to_string(), format!("line 1: 'F' in nodes, where only digits may stand: {quoted}"));
}

#[test]
fn values() {
    refused(
        &changed("F,6,6,2,2\n", "F,6,6,2,101\n"),
        [2, 1],
        "line 1: limit 101 is beyond 1 to 100: \"F,6,6,2,101\"",
    );
    refused(
        &changed("F,6,6,2,2\n", "F,4097,6,2,2\n"),
        [2, 1],
        "line 1: nodes 4097 is beyond 1 to 4096: \"F,4097,6,2,2\"",
    );
    refused(&changed("N,2,4,1\n", "N,2,4,0\n"), [2, 4], "line 4: capacity 0 is beyond 1 to 255: \"N,2,4,0\"");
    refused(&changed("N,2,4,1\n", "N,2,54,1\n"), [2, 4], "line 4: kind 54 is beyond 0 to 53: \"N,2,54,1\"");
    refused(&changed("E,1,2\n", "E,1,6\n"), [2, 10], "line 10: to 6 is beyond 0 to 5: \"E,1,6\"");
    refused(&changed("S,1,1\n", "S,2,1\n"), [2, 16], "line 16: net 2 is beyond 0 to 1: \"S,2,1\"");
    let tuned = |line: &str| changed("F,6,6,2,2\n", &format!("F,6,6,2,2\n{line}\n"));
    refused(&tuned("P,50,2,3,1"), [2, 2], "line 2: up 2 is beyond 3 to 8: \"P,50,2,3,1\"");
    refused(&tuned("P,50,3,5,1"), [2, 2], "line 2: down 5 is beyond 1 to 4: \"P,50,3,5,1\"");
    refused(&tuned("P,50,3,2,3"), [2, 2], "line 2: step 3 is beyond 1 to 2: \"P,50,3,2,3\"");
    refused(&tuned("V,3"), [2, 2], "line 2: rule 3 is beyond 1 to 2: \"V,3\"");
    refused(&tuned("P,50,3,2,1\nV,0"), [2, 3], "line 3: rule 0 is beyond 1 to 2: \"V,0\"");
    refused(&tuned("V,2,0"), [2, 2], "line 2: k 0 is beyond 1 to 99: \"V,2,0\"");
    refused(&tuned("V,2,100"), [2, 2], "line 2: k 100 is beyond 1 to 99: \"V,2,100\"");
    refused(&tuned("V,3,100"), [2, 2], "line 2: rule 3 is beyond 1 to 2: \"V,3,100\"");
}

#[test]
fn orders() {
    refused(
        &changed("N,2,4,1\n", "N,3,4,1\n"),
        [3, 4],
        "line 4: node 3 out of order: node 2 is due: \"N,3,4,1\"",
    );
    refused(&changed("E,1,2\n", "E,1,1\n"), [3, 10], "line 10: an edge from node 1 to itself: \"E,1,1\"");
    refused(&changed("E,0,3\n", "E,0,2\n"), [3, 9], "line 9: the edge of the line before again: \"E,0,2\"");
    refused(
        &changed("E,1,2\n", "E,0,1\n"),
        [3, 10],
        "line 10: edges must rise: the line before has 0 to 3: \"E,0,1\"",
    );
    refused(&changed("S,0,0\n", "S,1,0\n"), [3, 14], "line 14: net 1 out of order: net 0 is due: \"S,1,0\"");
    refused(
        &changed("S,0,0\n", "S,0,3\n"),
        [3, 14],
        "line 14: node 3 is a wire of length 2, of kind 5; a source must be of kind 0 or 2: \"S,0,3\"",
    );
    refused(
        &changed("T,0,4\n", "T,1,4\n"),
        [3, 15],
        "line 15: net 1 is not that of the S line above, net 0: \"T,1,4\"",
    );
    refused(&changed("T,0,4\n", "T,0,0\n"), [3, 15], "line 15: node 0 is the net's own source: \"T,0,0\"");
    refused(
        &changed("T,0,4\n", "T,0,4\nT,0,4\n"),
        [3, 16],
        "line 16: node 4 is a sink of this net already: \"T,0,4\"",
    );
    refused(
        &changed("T,0,4\n", "T,0,1\n"),
        [3, 15],
        "line 15: node 1 is a source, of kind 0; a sink must be of kind 1 or 3: \"T,0,1\"",
    );
}

/// Faulty lines of a timed job, and those of its lines that no other job has.
#[test]
fn timed_lines() {
    refused(
        "F,6,6,2,2\nW\nW\n",
        [1, 3],
        "line 3: begins with 'W' where the N line of node 0 should come: \"W\"",
    );
    refused(
        "F,6,6,2,2\nW\nV,2\n",
        [1, 3],
        "line 3: begins with 'V' where the N line of node 0 should come: \"V,2\"",
    );
    refused("F,6,6,2,2\nW", [1, 2], "line 2: the last line is not ended by LF: \"W\"");
    let timed = |from: &str, to: &str, numbers: [u64; 2], sentence: &str| {
        refused(&with(TIMED, from, to), numbers, sentence);
    };
    let alone = "after the letter W, which stands alone in its line";
    timed("W\n", "W,\n", [1, 2], &format!("line 2: ',' {alone}: \"W,\""));
    timed("W\n", "W1\n", [1, 2], &format!("line 2: '1' {alone}: \"W1\""));
    timed("W\n", "W\r\n", [1, 2], &format!("line 2: a carriage return {alone}: \"W\\r\""));
    timed("W\n", "", [1, 2], "line 2: has a delay, which only a timed job has: that has a W line before its N lines: \"N,0,0,1,0\"");
    timed(
        "N,1,4,1,60\n",
        "N,1,4,1\n",
        [1, 4],
        "line 4: has no delay, which a timed job has in each N line: there is a W line above: \"N,1,4,1\"",
    );
    timed("N,1,4,1,60\n", "N,1,4,1,\n", [1, 4], "line 4: delay has no digits: \"N,1,4,1,\"");
    timed(
        "T,0,4,9\n",
        "T,0,4\n",
        [1, 15],
        "line 15: has no criticality, which a timed job has in each T line: there is a W line above: \"T,0,4\"",
    );
    timed("S,0,0\n", "S,0,0,0\n", [1, 13], "line 13: has 3 numbers, where S takes 2: net, node: \"S,0,0,0\"");
    timed(
        "N,1,4,1,60\n",
        "N,1,4,1,1001\n",
        [2, 4],
        "line 4: delay 1001 is beyond 0 to 1000: \"N,1,4,1,1001\"",
    );
    timed("T,0,4,9\n", "T,0,4,10\n", [2, 15], "line 15: criticality 10 is beyond 0 to 9: \"T,0,4,10\"");
    timed(
        "N,1,4,1,60\n",
        "N,2,4,1,60\n",
        [3, 4],
        "line 4: node 2 out of order: node 1 is due: \"N,2,4,1,60\"",
    );
    timed("T,0,4,9\n", "T,0,3,9\n", [3, 15], "line 15: node 3 is a sink of this net already: \"T,0,3,9\"");
    timed("T,0,4,9\n", "T,0,0,9\n", [3, 15], "line 15: node 0 is the net's own source: \"T,0,0,9\"");
    timed(
        "T,0,4,9\n",
        "T,0,1,9\n",
        [3, 15],
        "line 15: node 1 is a wire of length 1, of kind 4; a sink must be of kind 1 or 3: \"T,0,1,9\"",
    );
}

/// Timed jobs beyond their bounds, read, routed and resumed, and a timed search; jobs that aren't timed have none of these.
#[test]
fn too_large() {
    let told = |refusal: Refusal, numbers: [u64; 3], sentence: &str| {
        assert_eq!((refusal.numbers(), refusal.to_string()), (numbers.to_vec(), String::from(sentence)));
    };
    let most = "a timed job has at most 1024 nodes and a limit of at most 40";
    let limited = |limit: u32| with(TIMED, "F,5,5,1,10\n", &format!("F,5,5,1,{limit}\n"));
    let refusal = Job::read(limited(41).as_bytes()).unwrap_err();
    told(refusal, [15, 5, 41], &format!("5 nodes and a limit of 41: {most}"));
    let mut job = Job::read(limited(40).as_bytes()).unwrap();
    assert!(job.route().is_ok());
    job.terms.limit = 100;
    told(job.route().unwrap_err(), [15, 5, 100], &format!("5 nodes and a limit of 100: {most}"));
    told(
        job.resume(Log::default()).unwrap_err(),
        [15, 5, 100],
        &format!("5 nodes and a limit of 100: {most}"),
    );
    let untimed = Job { timing: None, ..job };
    assert!(untimed.route().is_ok());

    let mut wide = Job { terms: Terms { limit: 1, ..Terms::default() }, ..Job::default() };
    wide.block.add(kind::SOURCE, 1, &[1]);
    (1..1_025).for_each(|_| wide.block.add(kind::SINK, 1, &[]));
    wide.nets.add(0, &[1]);
    assert!(wide.route().is_ok());
    let delay = vec![0; 1_025];
    wide.timing = Some(Timing { delay: delay.clone(), criticality: vec![0] });
    told(wide.route().unwrap_err(), [15, 1_025, 1], &format!("1025 nodes and a limit of 1: {most}"));
    let refusal = wide.block.timed_distances(&Congestion::default(), &delay, 10).unwrap_err();
    told(refusal, [15, 1_025, 0], "1025 nodes: a timed search takes at most 1024");

    let nodes: String = (0..1_025).map(|node| format!("N,{node},{},1,0\n", (node > 0) as u8)).collect();
    let text = format!("F,1025,1,1,40\nW\n{nodes}E,0,1\nS,0,0\nT,0,1,0\n");
    let refusal = Job::read(text.as_bytes()).unwrap_err();
    told(refusal, [15, 1_025, 40], &format!("1025 nodes and a limit of 40: {most}"));
}

fn job_b() -> Job {
    Job::read(JOB_B.as_bytes()).unwrap()
}

fn table_refused(change: impl Fn(&mut Job), table: u64, sentence: &str) {
    faulty(job_b(), change, table, sentence);
}

fn faulty(mut job: Job, change: impl Fn(&mut Job), table: u64, sentence: &str) {
    change(&mut job);
    let refusal = job.route().unwrap_err();
    assert_eq!(
        (refusal.numbers(), refusal.to_string()),
        (vec![5, table], format!("table {table} {sentence}"))
    );
}

#[test]
fn tables() {
    table_refused(|job| job.block.kind.clear(), 1, "(kind): has 0 entries, and may have 1 to 4096");
    table_refused(|job| job.block.kind[2] = 54, 1, "(kind): entry 2: kind 54 is beyond 0 to 53");
    table_refused(|job| job.block.capacity[5] = 0, 2, "(capacity): entry 5: capacity 0 is beyond 1 to 255");
    table_refused(|job| job.block.capacity.push(1), 2, "(capacity): has 7 entries, and should have 6");
    table_refused(|job| job.block.first_edge[2] = 1, 3, "(first_edge): entry 2: 1 comes after 2");
    table_refused(
        |job| job.block.edge_target.push(1),
        3,
        "(first_edge): ends with 6, and the table after it has 7 entries",
    );
    table_refused(
        |job| job.block.edge_target[1] = 2,
        4,
        "(edge_target): row of node 0, entry 1: 2 comes after 2",
    );
    table_refused(
        |job| job.block.edge_target[2] = 1,
        4,
        "(edge_target): row of node 1, entry 0: an edge to the node itself",
    );
    table_refused(
        |job| job.nets.source[1] = 2,
        5,
        "(source): entry 1: node 2 is a wire of length 1, of kind 4; a source must be of kind 0 or 2",
    );
    table_refused(|job| job.nets.first_sink[1] = 0, 6, "(first_sink): entry 1: 0 again: net 0 has no sink");
    table_refused(|job| job.nets.first_sink[2] = 0, 6, "(first_sink): entry 2: 0 comes after 1");
    table_refused(|job| job.nets.sink[1] = 6, 7, "(sink): sinks of net 1, entry 0: 6 is not a node of 6");
    table_refused(|job| job.terms.limit = 0, 8, "(terms): limit 0 is beyond 1 to 100");
    table_refused(|job| job.terms = Terms { up: 1, ..job.terms }, 8, "(terms): up 1 is beyond 2 to 8");
    table_refused(|job| job.terms.rule = 3, 8, "(terms): rule 3 is beyond 1 to 2");
    table_refused(|job| job.terms.until = 100, 8, "(terms): until 100 is beyond 1 to 99");
}

/// Table 9 comes after the terms, and table 10 after it.
#[test]
fn timed_tables() {
    let timed = |change: fn(&mut Timing, &mut Terms), table, sentence| {
        let job = Job::read(TIMED.as_bytes()).unwrap();
        faulty(job, |job| change(job.timing.as_mut().unwrap(), &mut job.terms), table, sentence);
    };
    timed(|timing, _| timing.delay[2] = 1_001, 9, "(delay): entry 2: delay 1001 is beyond 0 to 1000");
    timed(|timing, _| timing.delay.push(0), 9, "(delay): has 6 entries, and should have 5");
    timed(
        |timing, _| timing.criticality[1] = 10,
        10,
        "(criticality): entry 1: criticality 10 is beyond 0 to 9",
    );
    timed(|timing, _| timing.criticality.clear(), 10, "(criticality): has 0 entries, and should have 2");
    timed(|timing, _| *timing = Timing::default(), 9, "(delay): has 0 entries, and should have 5");
    let limit = |timing: &mut Timing, terms: &mut Terms| (timing.delay[0], terms.limit) = (1_001, 0);
    timed(limit, 8, "(terms): limit 0 is beyond 1 to 100");
    let limit = |timing: &mut Timing, terms: &mut Terms| (timing.delay[0], terms.limit) = (1_001, 41);
    timed(limit, 9, "(delay): entry 0: delay 1001 is beyond 0 to 1000");
}

#[test]
fn runs() {
    let mut job = job_b();
    job.terms.limit = 1;
    let refusal = job.route().unwrap_err();
    assert_eq!(refusal.numbers(), [9, 1, 1]);
    assert_eq!(
        refusal.to_string(),
        "not settled by iteration 1, the limit: 1 node is over capacity: node 2 (2 of 1: nets 0, 1); raise the limit, tune the tariff or \
         give those nodes room"
    );
    let Refusal::Limit { turns, log, overfull, may_rise, .. } = refusal else { panic!() };
    assert_eq!((turns, log.words().len(), may_rise), (2, 18, true));
    assert_eq!(overfull, [Overfull { node: 2, capacity: 1, nets: vec![0, 1] }]);

    let refusal = job_b().route_in(35).unwrap_err();
    assert_eq!(refusal.numbers(), [8, 2, 3]);
    assert_eq!(
        refusal.to_string(),
        "the log is full after 3 turns, in iteration 2: a longer log lets the job continue"
    );
    let Refusal::LogFull { log, .. } = refusal else { panic!() };
    assert_eq!(log.records().count(), 3);

    let mut job = job_b();
    job.nets.sink[1] = 4;
    job.block.edge_target.remove(3);
    job.block.first_edge[3..].iter_mut().for_each(|place| *place -= 1);
    let refusal = job.route().unwrap_err();
    assert_eq!(refusal.numbers(), [7, 1, 0]);
    assert_eq!(refusal.to_string(), "T,1,4: no path leads from node 1, the source of net 1, to sink 4");

    // net 1 joins net 0: its sink is the second of them
    job.nets.source[1] = 0;
    job.nets.sink = vec![4, 5];
    job.block.edge_target = vec![2, 3, 2, 4];
    job.block.first_edge = vec![0, 2, 3, 4, 4, 4, 4];
    let refusal = job.route().unwrap_err();
    assert_eq!(refusal.numbers(), [7, 0, 1]);
    assert_eq!(refusal.to_string(), "T,1,5: no path leads from node 0, the source of net 0, to sink 5");
}

/// At the highest limit, 100 or 40 in a timed job, a sentence doesn't say that it may be raised.
#[test]
fn the_highest_limit() {
    // nine nets from sources of their own over one wire
    let mut job = Job::default();
    for _ in 0..9 {
        job.block.add(kind::SOURCE, 1, &[9]);
    }
    job.block.add(kind::wire(1), 1, &[10]);
    job.block.add(kind::SINK, 9, &[]);
    (0..9).for_each(|net| job.nets.add(net, &[10]));
    let sentence = "limit: 1 node is over capacity: node 9 (9 of 1: nets 0, 1, 2, 3, 4, 5, 6, 7 and 1 more)";
    let told = |job: &Job| job.route().unwrap_err().to_string();
    let without = format!("{sentence}; tune the tariff or give those nodes room");
    assert_eq!(told(&job), format!("not settled by iteration 100, the highest {without}"));
    job.terms.limit = 40;
    let with = format!("{sentence}; raise the limit, tune the tariff or give those nodes room");
    assert_eq!(told(&job), format!("not settled by iteration 40, the {with}"));
    job.timing = Some(Timing { delay: vec![0; 11], criticality: vec![0; 9] });
    assert_eq!(told(&job), format!("not settled by iteration 40, the highest {without}"));
}

/// The T line of a timed job has its criticality.
#[test]
fn out_of_reach_in_a_timed_job() {
    let mut job = Job::read(TIMED.as_bytes()).unwrap();
    job.block.edge_target = vec![1, 2, 3];
    job.block.first_edge = vec![0, 2, 3, 3, 3, 3];
    let refusal = job.route().unwrap_err();
    assert_eq!(refusal.numbers(), [7, 0, 1]);
    assert_eq!(refusal.to_string(), "T,0,4,9: no path leads from node 0, the source of net 0, to sink 4");
}

/// Where in its line a fault stands.
#[test]
fn columns() {
    let column = |from: &str, to: &str| match Job::read(changed(from, to).as_bytes()) {
        Err(Refusal::Line(fault)) => fault.column,
        other => panic!("{other:?}"),
    };
    assert_eq!(column("N,2,4,1\n", "N,2, 4,1\n"), Some(4));
    assert_eq!(column("N,2,4,1\n", "N,2,4x,1\n"), Some(5));
    assert_eq!(column("N,2,4,1\n", "N,2,4,0\n"), Some(6));
    assert_eq!(column("N,2,4,1\n", "N,2,4\n"), Some(5));
    assert_eq!(column("N,2,4,1\n", "N,2,4,1,3\n"), Some(8));
    assert_eq!(column("N,2,4,1\n", "N2,4,1\n"), Some(1));
    assert_eq!(column("N,2,4,1\n", "M,2,4,1\n"), Some(0));
    assert_eq!(column("N,2,4,1\n", "N,3,4,1\n"), Some(2));
    assert_eq!(column("S,1,1\n", "S,1,3\n"), Some(4));
    assert_eq!(column("T,1,5\n", "T,1,5"), Some(5));
    assert_eq!(column("T,1,5\n", "T,0,5\n"), Some(2));
    assert_eq!(column("T,1,5\n", "T,1,5\nS"), Some(0));
    assert_eq!(column("T,1,5\n", ""), None);
    assert_eq!(column("F,6,6,2,2\n", "F,6,6,2,2\nV,1,1\n"), Some(4));
    assert_eq!(column("F,6,6,2,2\n", "F,6,6,2,2\nW,\n"), Some(1));
}

/// Logs that a run can't continue from.
#[test]
fn resumes() {
    let job = job_b();
    let whole = job.route().unwrap().log;
    let refused = |job: &Job, words: &[u32], word: u64, sentence: &str| {
        let refusal = job.resume(words).unwrap_err();
        assert_eq!((refusal.numbers(), refusal.to_string()), (vec![14, word], String::from(sentence)));
    };
    refused(&job, &[], 0, "the log is empty: there is no run to continue");
    let end = |word: u64| {
        format!(
            "the log follows the job to its end, at word {word}, but can't be continued: its last iteration is not whole, leaves \
             no node over capacity, or is the limit"
        )
    };
    refused(&job, &whole.words()[..9], 9, &end(9));
    refused(&job, whole.words(), 36, &end(36));
    let mut one = job.clone();
    one.terms.limit = 1;
    refused(&one, &whole.words()[..18], 18, &end(18));
    refused(&job, &whole.words()[..17], 9, "the log's record at word 9 does not follow the job");
    let mut costlier = whole.words()[..18].to_vec();
    costlier[3] += 1;
    refused(&job, &costlier, 0, "the log's record at word 0 does not follow the job");
    one.terms.limit = 0;
    assert_eq!(one.resume(&whole).unwrap_err().numbers(), [5, 8]);
}

/// In a timed job a lent record must join the sink that is due.
#[test]
fn timed_resumes() {
    let mut job = Job { terms: Terms { limit: 2, ..Terms::default() }, ..Job::default() };
    job.block.add(kind::SOURCE, 1, &[2]);
    job.block.add(kind::SOURCE, 1, &[2]);
    job.block.add(kind::wire(1), 1, &[3, 4]);
    job.block.add(kind::SINK, 2, &[4]);
    job.block.add(kind::SINK, 2, &[]);
    job.nets.add(0, &[3, 4]);
    job.nets.add(1, &[4]);
    job.timing = Some(Timing { delay: vec![0; 5], criticality: vec![0, 9, 0] });
    // sink 4 by sink 3, which is joined by that; net 0's nodes cost 2,000 each for it, net 1's 20,000
    let passing = [1, 0, 4, 6_000, 0, 4, 0, 2, 3, 4, 1, 1, 4, 40_000, 0, 3, 1, 2, 4];
    let refusal = job.resume(passing).unwrap_err();
    assert_eq!(refusal.numbers(), [9, 2, 1]);
    let Refusal::Limit { turns, log, .. } = refusal else { panic!() };
    assert_eq!((turns, &log.words()[..19]), (5, &passing[..]));
    // sink 3 first, though both records cost what they should
    let not_due =
        [1, 0, 3, 40_000, 0, 3, 0, 2, 3, 1, 0, 4, 2_000, 0, 2, 2, 4, 1, 1, 4, 40_000, 0, 3, 1, 2, 4];
    assert_eq!(job.resume(not_due).unwrap_err().numbers(), [14, 0]);
}

#[test]
fn stored_logs() {
    let mut nets = job_b().nets;
    let answer = job_b().route().unwrap();
    let mut words = answer.log.words().to_vec();
    assert_eq!(Log::from_words(&words, &nets).unwrap(), answer.log);
    words[9] = 0;
    let refusal = Log::from_words(&words, &nets).unwrap_err();
    assert_eq!(
        (refusal.numbers(), refusal.to_string()),
        (vec![10, 9], String::from("the log's record at word 9 is unsound"))
    );
    assert_eq!(Log::from_words(&[], &nets).unwrap_err().numbers(), [10, 0]);
    assert_eq!(Log::default().routes(&nets).unwrap_err().numbers(), [10, 0]);
    assert_eq!(Log::default().records().count(), 0);

    // net 1 joined into net 0, and left out
    nets.source[1] = 0;
    assert_eq!(answer.log.routes(&nets).unwrap_err().numbers(), [10, 9]);
    nets.source.pop();
    assert_eq!(answer.log.routes(&nets).unwrap_err().numbers(), [10, 9]);
    let sources_refused = |source: &[u16], sentence: &str| {
        let nets = Nets { source: source.to_vec(), ..Nets::default() };
        let refusal = answer.log.routes(&nets).unwrap_err();
        let expected = (vec![5, 5], format!("table 5 (source): {sentence}"));
        assert_eq!((refusal.numbers(), refusal.to_string()), expected);
    };
    sources_refused(&[], "has 0 entries, and may have 1 to 512");
    sources_refused(&[0; 513], "has 513 entries, and may have 1 to 512");
    sources_refused(&[0, 4_096], "entry 1: node 4096 is beyond 0 to 4095");
}

#[test]
fn numbers_called_alone() {
    let wire = Use { kind: 4, factor: 0, others: 0, capacity: 1, history: 1 };
    let refusal = Use { factor: 65_536, history: 0, ..wire }.price().unwrap_err();
    assert_eq!(
        (refusal.numbers(), refusal.to_string()),
        (vec![13, 1], String::from("factor 65536 is beyond 0 to 65535"))
    );

    let mut block = Block::default();
    block.add(kind::SOURCE, 1, &[1]);
    block.add(kind::SINK, 1, &[]);
    let start = Congestion { factor: 65_536, history: vec![1, 1], others: vec![0], in_tree: vec![1, 0] };
    let refusal = block.distances(&start).unwrap_err();
    assert_eq!(refusal.numbers(), [13, 1]);
    assert_eq!(
        refusal.to_string(),
        "node 1: history 1, of 1 to 101179, others missing, of 0 to 511, and tree mark 0, of 0 and 1: one of them is bad"
    );
    let refusal = block.distances(&Congestion { others: vec![0, 0], ..start }).unwrap_err();
    assert_eq!(
        (refusal.numbers(), refusal.to_string()),
        (vec![13, 2], String::from("factor 65536 is beyond 0 to 65535"))
    );
    block.capacity[0] = 0;
    assert_eq!(block.distances(&Congestion::default()).unwrap_err().numbers(), [5, 2]);
}

#[test]
fn timed_numbers_called_alone() {
    let refused = |refusal: Refusal, numbers: [u64; 2], sentence: &str| {
        assert_eq!((refusal.numbers(), refusal.to_string()), (numbers.to_vec(), String::from(sentence)));
    };
    let wire = Use { kind: 4, factor: 0, others: 0, capacity: 1, history: 101_179 };
    assert_eq!(wire.timed_price(1_000, 9).unwrap(), 900_000 + 202_358_000);
    refused(wire.timed_price(1_001, 10).unwrap_err(), [13, 5], "delay 1001 is beyond 0 to 1000");
    refused(wire.timed_price(1_000, 10).unwrap_err(), [13, 6], "criticality 10 is beyond 0 to 9");
    let far = Use { history: 101_180, ..wire };
    refused(far.timed_price(1_001, 10).unwrap_err(), [13, 4], "history 101180 is beyond 1 to 101179");

    let mut block = Block::default();
    block.add(kind::SOURCE, 1, &[1]);
    block.add(kind::SINK, 1, &[]);
    let start = |factor, history| Congestion {
        factor,
        history: vec![1, history],
        others: vec![0, 0],
        in_tree: vec![1, 0],
    };
    let timed =
        |start: &Congestion, delay: &[u16], criticality| block.timed_distances(start, delay, criticality);
    assert_eq!(timed(&start(0, 39_859), &[0, 3], 9).unwrap(), [Some(0), Some(2_700 + 79_718_000)]);
    refused(
        timed(&start(65_536, 39_860), &[0, 3], 10).unwrap_err(),
        [13, 1],
        "node 1: history 39860, of 1 to 39859, others 0, of 0 to 511, and tree mark 0, of 0 and 1: one of them is bad",
    );
    refused(timed(&start(65_536, 1), &[0, 3], 10).unwrap_err(), [13, 2], "factor 65536 is beyond 0 to 65535");
    refused(timed(&start(0, 1), &[0, 3], 10).unwrap_err(), [13, 3], "criticality 10 is beyond 0 to 9");
    refused(
        timed(&start(0, 0), &[0], 10).unwrap_err(),
        [5, 9],
        "table 9 (delay): has 1 entries, and should have 2",
    );
    refused(
        timed(&start(0, 0), &[0, 1_001], 10).unwrap_err(),
        [5, 9],
        "table 9 (delay): entry 1: delay 1001 is beyond 0 to 1000",
    );
    assert_eq!(block.distances(&start(0, 101_179)).unwrap(), [Some(0), Some(202_358_000)]);
}

/// Adding a log and printing refuse the same counts, by the same sentence.
#[test]
fn counts_of_uses() {
    let Job { mut block, nets, .. } = job_b();
    let log = job_b().route().unwrap().log;
    let of = |logs, wires| {
        let mut counts = UseCounts { logs, ..UseCounts::default() };
        counts.uses[usize::from(kind::wire(2))] = wires;
        counts
    };
    let added = |mut counts: UseCounts, block: &Block, log: &[u32]| {
        let before = counts.clone();
        let refusal = counts.add(block, log).unwrap_err();
        assert_eq!(counts, before);
        (refusal.numbers(), refusal.to_string())
    };
    let refused = |counts: UseCounts, block: &Block, place: [u64; 2], sentence: &str| {
        let refusal = counts.text(block).unwrap_err();
        assert_eq!((refusal.numbers(), refusal.to_string()), (place.to_vec(), String::from(sentence)));
        assert_eq!(added(counts, block, &[]), (place.to_vec(), String::from(sentence)));
    };
    let sentence = "counts of 65536 logs: they may be of at most 65535";
    refused(of(65_536, 9), &block, [13, 54], sentence);
    let sentence = "kind 5, a wire of length 2: 1025 uses, where 2 logs have at most 1024";
    refused(of(2, 1_025), &block, [13, 5], sentence);

    let full = of(65_535, 9);
    let sentence = "the counts have 65535 logs already, the highest number: begin new ones";
    assert_eq!(added(full.clone(), &block, log.words()), (vec![16, 65_535], String::from(sentence)));
    let sentence = "the log's record at word 27 is unsound";
    assert_eq!(added(full.clone(), &block, &log.words()[..35]), (vec![10, 27], String::from(sentence)));

    // a block without the last node lacks the sink of the second record; the log itself is sound
    let small = Block {
        kind: vec![0, 0, 4, 5, 1],
        capacity: vec![1; 5],
        first_edge: vec![0; 6],
        edge_target: vec![],
    };
    assert_eq!(added(of(1, 0), &small, log.words()).0, [10, 9]);
    assert!(Log::from_words(log.words(), &nets).is_ok());

    block.capacity[2] = 0;
    let sentence = "table 2 (capacity): entry 2: capacity 0 is beyond 1 to 255";
    refused(full, &block, [5, 2], sentence);
}
