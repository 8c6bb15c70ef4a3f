//! `audit`: a log held against its job.

mod common;

use common::{unreachable, Folder, JOB_B, TIMED};

const DETOUR: &str = include_str!("../../../examples/detour.txt");
const DETOUR_LOG: &str = include_str!("../../../examples/detour.log");

/// A folder with job B, its own log, and the job with the detour.
fn folder(name: &str) -> Folder {
    let folder = Folder::new(name);
    folder.write("b.txt", JOB_B);
    folder.write("detour.txt", DETOUR);
    folder.write("detour.log", DETOUR_LOG);
    assert_eq!(folder.words("route -q b.txt --log b.log -o out").status, 0);
    folder
}

#[test]
fn files_that_are_not_there_and_wrong_arguments() {
    let folder = folder("audit_wrong");
    let wrong = |words: &str, told: &str| {
        let ended = folder.words(words);
        assert_eq!((ended.status, ended.out.as_str()), (2, ""), "{words}");
        assert!(ended.told.contains(told), "{words}: {}", ended.told);
    };
    wrong("audit", "no job is named");
    wrong("audit b.txt", "a job and a log are taken, no less and no more");
    wrong("audit b.txt b.log b.log", "a job and a log are taken, no less and no more");
    wrong("audit - -", "job and log can't both be read from standard input");
    wrong("audit none.txt b.log", "none.txt: No such file");
    wrong("audit b.txt none.log", "none.log: No such file");
}

#[test]
fn logs_of_other_jobs_and_cut_ones() {
    let folder = folder("audit_other");
    folder.write("timed.txt", TIMED);
    let refused = |words: &str, told: &str| {
        let ended = folder.words(words);
        assert_eq!((ended.status, ended.out.as_str()), (1, ""), "{words}: {}", ended.told);
        assert!(ended.told.starts_with(told), "{words}: {}", ended.told);
    };
    refused("audit timed.txt b.log", "b.log:2: net 1 is none of the job's 1\n");
    refused("audit b.txt detour.log", "detour.log: X,14,0: ");
    folder.write("cut.log", &DETOUR_LOG[..DETOUR_LOG.len() - 3]);
    refused("audit detour.txt cut.log", "cut.log:2: ");
    folder.write("none.log", "");
    refused("audit detour.txt none.log", "none.log");
    folder.write("bad.txt", DETOUR.replacen("N,2,4,1", "N,2,54,1", 1));
    refused("audit bad.txt detour.log", "bad.txt:4: X,2,4: ");
    folder.write("far.txt", unreachable());
    assert_eq!(folder.words("audit far.txt b.log").status, 3);
}

#[test]
fn sound_logs_and_a_detour() {
    let folder = folder("audit_told");
    folder.words("audit b.txt b.log").told(
        0,
        "b.log: sound: each of its 4 turns is a cheapest one; after 2 iterations, whole, no node is over capacity\n",
    );
    folder.words("audit -q b.txt b.log").printed("");
    folder.words("audit detour.txt detour.log").told(
        4,
        "detour.log: turn 2: net 0 to sink 5 cost 6,000, a path of 4,000 exists\n  its path: 0 6 5\n  cheaper: 2 4 5\n",
    );
    assert_eq!(folder.words("audit -q detour.txt detour.log").status, 4);
    folder.write("one.log", DETOUR_LOG.split_inclusive('\n').next().unwrap());
    folder
        .words("audit detour.txt one.log")
        .told(0, "one.log: sound: its turn is a cheapest one; no iteration is whole\n");
}
