//! `log`, `report`, `picture` and `uses`.

mod common;

use common::{limited, Folder, CROWDED, JOB_B, TIMED};
use std::fs;
use std::path::Path;

#[test]
fn a_log_has_a_line_a_record() {
    let folder = Folder::new("log");
    folder.write("b.txt", JOB_B);
    let log = "iteration 1, net 0, sink 4, cost 4000, path 0 2 4\niteration 1, net 1, sink 5, cost 4000, path 1 2 5\n\
        iteration 2, net 0, sink 4, cost 6000, path 0 3 4\niteration 2, net 1, sink 5, cost 6000, path 1 2 5\n";
    folder.words("log b.txt").printed(log);
    let line = |place: usize| format!("{}\n", log.lines().nth(place).unwrap());
    folder.words("log b.txt --net 1 --iteration 2").printed(&line(3));
    folder.words("log b.txt --iteration 1").printed(&(line(0) + &line(1)));
    folder.words("log b.txt --net 7").told(0, "b.txt: no record is of that net and iteration\n");
    // that of a job whose limit was reached is printed too
    folder.write("limited.txt", limited());
    let ended = folder.words("log limited.txt");
    assert_eq!((ended.status, ended.out), (3, line(0) + &line(1)));
    assert!(ended.told.starts_with("limited.txt: X,9,1,1: "), "{}", ended.told);
}

#[test]
fn costs_are_split() {
    let folder = Folder::new("why");
    folder.write("b.txt", JOB_B);
    folder.words("log b.txt --net 0 --iteration 2 --why").printed(
        "iteration 2, net 0, sink 4, cost 6000, path 0 3 4\n  \
         node 3: history 1 × base 40 × (100 + factor 50 × excess 0) = 4000\n  \
         node 4: history 1 × base 20 × (100 + factor 50 × excess 0) = 2000\n",
    );
    folder.write("timed.txt", TIMED);
    let ended = folder.words("log timed.txt --why");
    assert_eq!(ended.status, 0);
    let expected = "  node 2: criticality 9 × delay 10 × 100 + (10 − 9) × history 1 × base 60 × (100 + factor 0 × excess 0) = 15000\n";
    assert!(ended.out.contains(expected), "{}", ended.out);
}

#[test]
fn a_report_has_detours_crowded_nodes_and_uses() {
    let folder = Folder::new("report");
    folder.write("b.txt", JOB_B);
    folder.words("report b.txt").printed(
        "b.txt: settled in iteration 2, after 4 turns\n\n\
         Detours: 1 of 2 nets more expensive than alone, that is in iteration 1; trees at base costs\n\
         net  sinks  alone  now  more  percent\n  \
         0      1     60   80    20    133.3\n  \
         1      1     60   60     0    100.0\n\n\
         Crowded nodes: 1 node overfull at some time; peak is the most nets, overfull in how many iterations\n\
         node  kind              use/capacity  history  peak  overfull  nets\n   \
         2  wire of length 1           1/1        2     2         1  1\n\n\
         Use of wires: by kind, over the final trees\n\
         kind  name              uses  capacity  percent\n   \
         0  source               2         2    100.0\n   \
         1  sink                 2         2    100.0\n   \
         4  wire of length 1     1         1    100.0\n   \
         5  wire of length 2     1         1    100.0\n\n\
         Iterations: nodes overfull after each, and the trees' base costs\n\
         iteration  factor  nets  turns  overfull  overuse  tree cost\n        \
         1       0     2      2         1        1        120\n        \
         2      50     2      2         0        0        140\n",
    );
    let top = folder.words("report b.txt --top 1").out;
    assert!(top.contains("133.3") && !top.contains("     1     60   60"), "{top}");
}

#[test]
fn a_timed_report_has_delays() {
    let folder = Folder::new("delays");
    folder.write("timed.txt", TIMED);
    let out = folder.words("report timed.txt").out;
    let delays = "Delays: 0 of 2 sinks reached later than in iteration 1\nnet  sink  criticality  alone  now  more\n  \
        0     4            9     10   10     0\n  0     3            0     60   60     0\n";
    assert!(out.contains(delays), "{out}");
    let json = folder.words("report timed.txt --json").out;
    assert!(json.contains("{\"net\":0,\"sink\":4,\"criticality\":9,\"alone\":10,\"now\":10}"), "{json}");
}

#[test]
fn a_report_of_an_unsettled_job() {
    let folder = Folder::new("unsettled");
    folder.write("limited.txt", limited());
    let ended = folder.words("report limited.txt --json");
    assert_eq!(ended.status, 3);
    assert!(ended.told.starts_with("limited.txt: X,9,1,1: "), "{}", ended.told);
    assert!(ended.out.contains("\"routed\":false"), "{}", ended.out);
    assert!(ended.out.contains(
        "{\"node\":2,\"kind\":4,\"capacity\":1,\"nets\":[0,1],\"history\":1,\"peak\":2,\"overfull\":1}"
    ));
}

#[test]
fn places_are_tested() {
    let folder = Folder::new("places");
    folder.write("b.txt", JOB_B);
    let cases = [
        ("0,1,2\n1;2,3\n", "places:2: a line is node,x,y, three numbers of which x and y are at most 65535"),
        ("0,1,2\n0,2,3\n", "places:2: node 0 has a place in line 1 already"),
        ("0,1,2\n6,2,3\n", "places:2: the job has no node 6, but nodes 0 to 5"),
    ];
    for (places, told) in cases {
        folder.write("places", places);
        folder.words("report b.txt --html page.html --places places").told(2, &format!("arvumnao: {told}\n"));
    }
    assert_eq!(folder.names(), ["b.txt", "places"]);
}

#[test]
fn a_picture_has_the_branches_of_the_proved_one() {
    let folder = Folder::new("picture");
    folder.write("crowded.txt", CROWDED);
    let graph = folder.words("picture crowded.txt").out;
    let drawn = branches(&graph);
    let text = Path::new(env!("CARGO_MANIFEST_DIR")).join("../../examples/job_crowded.txt");
    let job = arvumnao::Job::read(&fs::read(text).unwrap()).unwrap();
    let proved = job.route().unwrap().log.picture(&job.nets).unwrap();
    assert_eq!(drawn, branches(&proved));
    assert_eq!(drawn.len(), 6);
    assert!(!graph.contains("red"));
    let one = folder.words("picture crowded.txt --net 2 --dot").out;
    assert_eq!(
        branches(&one),
        drawn.iter().filter(|branch| branch.ends_with(" 2")).cloned().collect::<Vec<_>>()
    );
    let ended = folder.words("picture crowded.txt --net 9");
    ended.told(2, "arvumnao: crowded.txt: has no net 9, but nets 0 to 2 (see arvumnao picture --help)\n");
}

/// From, to and net of each line of a graph.
fn branches(graph: &str) -> Vec<String> {
    let lines = graph.lines().filter(|line| line.contains(" -> "));
    lines
        .map(|line| {
            line.split(['"', ' ']).filter(|word| word.parse::<u32>().is_ok()).collect::<Vec<_>>()[..3]
                .join(" ")
        })
        .collect()
}

#[test]
fn overfull_nodes_are_red_also_where_the_job_was_refused() {
    let folder = Folder::new("red");
    folder.write("limited.txt", limited());
    let ended = folder.words("picture limited.txt");
    assert_eq!(ended.status, 3);
    assert!(ended.out.contains("2 [shape=box, label=\"2\\nwire 1\\n2/1\", color=red"), "{}", ended.out);
}

/// Without Graphviz a sentence says so; with it the drawing has each net's label.
#[test]
fn drawings_need_graphviz() {
    let folder = Folder::new("drawing");
    folder.write("b.txt", JOB_B);
    let ended: common::Ended = folder
        .command(&["picture", "b.txt", "--svg", "-o", "b.svg"])
        .env("PATH", "")
        .output()
        .unwrap()
        .into();
    ended.told(2, "arvumnao: dot: Graphviz is not installed (Debian's package graphviz); --dot prints the graph without it\n");
    assert_eq!(folder.names(), ["b.txt"]);
    match folder.words("picture b.txt --svg") {
        ended if ended.status == 0 => assert!(ended.out.contains("<svg") && ended.out.contains("wire 2")),
        ended if ended.told.contains("is not installed") => println!("left out: Graphviz is not installed"),
        ended => panic!("{ended:?}"),
    }
}

#[test]
fn uses_over_jobs_of_one_block() {
    let folder = Folder::new("uses");
    for number in 1..=3 {
        let text = format!("{}/../../examples/uses_{number}.txt", env!("CARGO_MANIFEST_DIR"));
        fs::copy(text, folder.0.join(format!("uses_{number}.txt"))).unwrap();
    }
    let csv =
        "kind,name,uses,capacity,percent\n0,source,5,6,83.3\n1,sink,7,9,77.8\n4,wire of length 1,4,6,66.7\n\
        5,wire of length 2,1,3,33.3\n15,wire of length 12,1,3,33.3\n";
    for parts in ["", "-j 1", "-j 3", "-j 0"] {
        folder.words(&format!("uses uses_1.txt uses_2.txt uses_3.txt --csv {parts}")).printed(csv);
    }
    let table = folder.words("uses uses_1.txt uses_2.txt uses_3.txt").out;
    assert!(table.starts_with("kind  name               uses  capacity  percent\n   0  source                5         6     83.3\n"), "{table}");
    // another block
    folder.write("b.txt", JOB_B);
    let ended = folder.words("uses uses_1.txt b.txt");
    ended.told(
        2,
        "arvumnao: b.txt: its block is not that of uses_1.txt: uses are counted over jobs of one block\n",
    );
}

#[test]
fn refused_jobs_are_named_and_left_out_where_that_is_asked_for() {
    let folder = Folder::new("skip");
    folder.write("b.txt", JOB_B);
    folder.write("limited.txt", limited());
    folder.write("bad.txt", "F\n");
    let ended = folder.words("uses b.txt limited.txt");
    assert_eq!((ended.status, ended.out.as_str()), (3, ""));
    assert!(ended.told.starts_with("limited.txt: X,9,1,1: "), "{}", ended.told);
    assert!(ended.told.contains("no counts are printed"), "{}", ended.told);
    let all = folder.words("uses b.txt --csv").out;
    let ended = folder.words("uses bad.txt limited.txt b.txt --csv --skip-refused");
    assert_eq!((ended.status, ended.out), (3, all));
    assert!(ended.told.starts_with("bad.txt:1: X,1,1: ") && ended.told.contains("\nlimited.txt: X,9,1,1: "));
    let ended = folder.words("uses bad.txt --skip-refused");
    assert_eq!((ended.status, ended.out.as_str()), (1, ""));
}
