//! `route`: the routes of jobs, where they go, and their logs.

mod common;

use common::{limited, unreachable, Folder, CROWDED, JOB_B, ROUTES_B, TIMED};
use std::fs;
use std::os::unix::fs::{symlink, PermissionsExt};

const LOG_B: &str =
    "1,0,4,4000,0,3,0,2,4\n1,1,5,4000,0,3,1,2,5\n2,0,4,6000,0,3,0,3,4\n2,1,5,6000,0,3,1,2,5\n";

#[test]
fn the_routes_are_those_of_the_program_router() {
    let folder = Folder::new("routes");
    folder.write("b.txt", JOB_B);
    folder.words("route b.txt").printed(ROUTES_B);
    folder.fed("route -", JOB_B).printed(ROUTES_B);
    folder.words("-q route b.txt").printed(ROUTES_B);
    folder.words("route b.txt -o -").printed(ROUTES_B);
    folder.write("timed.txt", TIMED);
    folder.words("route timed.txt").printed("R,1,2\nB,0,0,2\nB,0,2,4\nB,0,0,1\nB,0,1,3\n");
}

/// A text of more nodes than the program `router` takes.
#[test]
fn jobs_of_every_size() {
    let folder = Folder::new("large");
    let nodes = 4_096;
    let mut text = format!("F,{nodes},{},1,1\n", nodes - 1);
    for node in 0..nodes {
        let kind = if node == 0 {
            0
        } else if node == nodes - 1 {
            1
        } else {
            4
        };
        text += &format!("N,{node},{kind},1\n");
    }
    (1..nodes).for_each(|node| text += &format!("E,{},{node}\n", node - 1));
    folder.write("long.txt", text + &format!("S,0,0\nT,0,{}\n", nodes - 1));
    let ended = folder.words("route long.txt");
    assert_eq!((ended.status, ended.told.as_str()), (0, ""));
    assert_eq!(ended.out.lines().count(), nodes);
    assert!(ended.out.starts_with("R,1,1\nB,0,0,1\n"));
}

#[test]
fn a_file_is_written_whole_and_keeps_its_mode_and_links() {
    let folder = Folder::new("files");
    folder.write("b.txt", JOB_B);
    folder.words("route b.txt -o new.routes --log new.log").printed("");
    assert_eq!((folder.read("new.routes").as_str(), folder.read("new.log").as_str()), (ROUTES_B, LOG_B));
    folder.write("old", "what stood there");
    fs::set_permissions(folder.0.join("old"), fs::Permissions::from_mode(0o640)).unwrap();
    symlink("old", folder.0.join("link")).unwrap();
    folder.words("route b.txt --output=link").printed("");
    assert_eq!(folder.read("old"), ROUTES_B);
    assert!(fs::symlink_metadata(folder.0.join("link")).unwrap().is_symlink());
    assert_eq!(fs::metadata(folder.0.join("old")).unwrap().permissions().mode() & 0o777, 0o640);
    assert_eq!(folder.names(), ["b.txt", "link", "new.log", "new.routes", "old"]);
}

/// A refused job leaves an older file as it was, and says so.
#[test]
fn a_refused_job_writes_nothing() {
    let folder = Folder::new("refused");
    folder.write("bad.txt", unreachable());
    folder.write("kept", "old");
    let ended = folder.words("route bad.txt -o kept");
    assert_eq!((ended.status, ended.out.as_str()), (3, ""));
    assert!(ended.told.starts_with("bad.txt:13: X,7,0,0: "), "{}", ended.told);
    assert!(ended.told.ends_with("kept: is left as it was\n"), "{}", ended.told);
    assert_eq!(folder.read("kept"), "old");
    assert_eq!(folder.words("route bad.txt -o none").status, 3);
    assert_eq!(folder.names(), ["bad.txt", "kept"]);
}

#[test]
fn a_folder_takes_several_jobs() {
    let folder = Folder::new("folder");
    folder.write("b.txt", JOB_B);
    folder.write("crowded.txt", CROWDED);
    folder.write("limited.txt", limited());
    let ended = folder.words("route b.txt crowded.txt limited.txt -d made/here -j 2");
    assert_eq!((ended.status, ended.out.as_str()), (3, ""));
    assert!(ended.told.starts_with("limited.txt: X,9,1,1: "), "{}", ended.told);
    assert_eq!(folder.read("made/here/b.routes"), ROUTES_B);
    assert!(folder.read("made/here/crowded.routes").starts_with("R,2,5\n"));
    // the log of a run that its limit stopped is kept, and another run continues from it
    let first: String = LOG_B.split_inclusive('\n').take(2).collect();
    assert_eq!(folder.read("made/here/limited.log"), first);
    assert_eq!(fs::read_dir(folder.0.join("made/here")).unwrap().count(), 3);
    folder.words("route limited.txt --limit 2 --resume made/here/limited.log").printed(ROUTES_B);
    // several jobs without a folder are printed one after the other
    let ended = folder.words("route b.txt b.txt");
    assert_eq!(ended.out, format!("{ROUTES_B}{ROUTES_B}"));
}

#[test]
fn limits_and_logs() {
    let folder = Folder::new("logs");
    folder.write("limited.txt", limited());
    let ended = folder.words("route limited.txt --log first.log");
    assert_eq!((ended.status, ended.out.as_str()), (3, ""));
    assert!(ended.told.contains(
        "first.log has its log; to continue: arvumnao route limited.txt --limit N --resume first.log\n"
    ));
    folder.words("route limited.txt --limit 9 --resume first.log --log whole.log").printed(ROUTES_B);
    assert_eq!(folder.read("whole.log"), LOG_B);
    folder.words("route limited.txt --limit 2 --log - -o b.routes").printed(LOG_B);
    // a log that is settled, or of another job, can't be continued
    let ended = folder.words("route limited.txt --limit 9 --resume whole.log");
    assert_eq!((ended.status, ended.out.as_str()), (1, ""));
    assert!(ended.told.starts_with("whole.log: X,14,36: "), "{}", ended.told);
    // without --log a run that the limit stops leaves none
    assert_eq!(folder.words("route limited.txt").status, 3);
    assert_eq!(folder.names(), ["b.routes", "first.log", "limited.txt", "whole.log"]);
}

#[test]
fn a_log_text_that_is_none_is_told_by_its_line() {
    let folder = Folder::new("log_texts");
    folder.write("limited.txt", limited());
    folder.write("bad.log", "1,0,4,4000,0,3,0,2,4\n1,1,5,4000,0,x,1,2,5\n");
    let ended = folder.words("route limited.txt --limit 2 --resume bad.log");
    assert_eq!((ended.status, ended.out.as_str()), (1, ""));
    assert!(ended.told.starts_with("bad.log:2: "), "{}", ended.told);
    assert!(ended.told.contains("  2 | 1,1,5,4000,0,x,1,2,5\n    |              ^\n"), "{}", ended.told);
    let ended = folder.words("route limited.txt --limit 2 --resume bad.log --json");
    assert!(
        ended.out.starts_with("{\"job\":\"bad.log\",\"routed\":false,\"refusal\":[],\"reason\":"),
        "{}",
        ended.out
    );
    let ended = folder.words("route limited.txt --resume none.log");
    ended.told(2, "arvumnao: none.log: No such file or directory\n");
}

#[test]
fn the_search_that_aims_gives_the_same_and_a_count() {
    let folder = Folder::new("aimed");
    folder.write("b.txt", JOB_B);
    let ended = folder.words("route b.txt --aimed");
    assert_eq!((ended.status, ended.out.as_str()), (0, ROUTES_B));
    assert!(ended.told.contains("nodes expanded: 12\n"), "{}", ended.told);
    folder.words("route b.txt --aimed -q").printed(ROUTES_B);
}

#[test]
fn json_has_an_object_a_line() {
    let folder = Folder::new("json");
    folder.write("b.txt", JOB_B);
    folder.write("limited.txt", limited());
    let routed = "{\"job\":\"b.txt\",\"routed\":true,\"iteration\":2,\"turns\":4,\
        \"nets\":[{\"net\":0,\"branches\":[[0,3],[3,4]]},{\"net\":1,\"branches\":[[1,2],[2,5]]}],\"joined\":[]}\n";
    folder.words("route b.txt --json").printed(routed);
    let ended = folder.words("route b.txt limited.txt --json -o both.json");
    assert_eq!(ended.status, 3);
    let both = folder.read("both.json");
    assert!(both.starts_with(routed));
    assert!(
        both.contains(
            "{\"job\":\"limited.txt\",\"routed\":false,\"refusal\":[9,1,1],\"reason\":\"not settled"
        ),
        "{both}"
    );
    assert_eq!(both.lines().count(), 2);
}

#[test]
fn arguments_that_cant_be() {
    let folder = Folder::new("arguments");
    folder.write("b.txt", JOB_B);
    folder.write("b.job", JOB_B);
    let wrong = [
        ("route", "no job is named (see arvumnao route --help)"),
        (
            "route b.txt --limit 0",
            "--limit takes a number from 1 to 100, not '0' (see arvumnao route --help)",
        ),
        ("route b.txt -o x -d y", "--output and --directory don't go together (see arvumnao route --help)"),
        (
            "route b.txt b.txt -o x",
            "-o takes the routes of one job: name a folder by -d for several (see arvumnao route --help)",
        ),
        (
            "route b.txt b.txt --log x",
            "--log is of one job, and several are named (see arvumnao route --help)",
        ),
        (
            "route b.txt b.txt --resume x",
            "--resume is of one job, and several are named (see arvumnao route --help)",
        ),
        ("route b.txt b.job -d y", "b.txt and b.job would both go to y/b.routes (see arvumnao route --help)"),
        ("route - -", "standard input is one job (see arvumnao route --help)"),
        (
            "route b.txt --log -",
            "routes and log can't both go to standard output: name a file by -o (see arvumnao route --help)",
        ),
        ("route b.txt -o x --log x", "routes and log can't both go to one file (see arvumnao route --help)"),
        ("route b.txt -j", "-j lacks its N (see arvumnao route --help)"),
        ("rout b.txt", "no subcommand 'rout'; did you mean route? (see arvumnao --help)"),
        ("", "no subcommand is named (see arvumnao --help)"),
    ];
    for (words, told) in wrong {
        folder.words(words).told(2, &format!("arvumnao: {told}\n"));
    }
}

#[test]
fn files_that_cant_be() {
    let folder = Folder::new("no_files");
    folder.write("b.txt", JOB_B);
    folder.words("route none.txt").told(2, "arvumnao: none.txt: No such file or directory\n");
    folder.words("route .").told(2, "arvumnao: .: Is a directory\n");
    folder.words("route b.txt -o none/x").told(2, "arvumnao: none/x: No such file or directory\n");
    folder.words("route b.txt -o .").told(2, "arvumnao: .: is a folder\n");
    folder.words("route b.txt -d b.txt").told(2, "arvumnao: b.txt: File exists\n");
    // a job is not written over, under whatever name
    symlink("b.txt", folder.0.join("link")).unwrap();
    let told = "is a job that is named, and would be written over\n";
    folder.words("route b.txt -o b.txt").told(2, &format!("arvumnao: b.txt: {told}"));
    folder.words("route link --log ./b.txt").told(2, &format!("arvumnao: ./b.txt: {told}"));
    folder.words("report b.txt --html link").told(2, &format!("arvumnao: link: {told}"));
    assert_eq!(folder.read("b.txt"), JOB_B);
    fs::remove_file(folder.0.join("link")).unwrap();
    // the others are routed all the same
    let ended = folder.words("route none.txt b.txt");
    assert_eq!((ended.status, ended.out.as_str()), (2, ROUTES_B));
    assert_eq!(folder.names(), ["b.txt"]);
}
