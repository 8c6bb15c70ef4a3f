//! How the command ends: a full disk, a closed pipe, Ctrl-C, and what a terminal sees.

mod common;

use common::{endless, limited, Ended, Folder, JOB_B, ROUTES_B};
use std::fs::{self, OpenOptions};
use std::io::Write;
use std::process::{Child, Command, Stdio};
use std::thread;
use std::time::Duration;

#[test]
fn help_and_version() {
    let folder = Folder::new("help");
    let version = env!("CARGO_PKG_VERSION");
    folder.words("--version").printed(&format!("arvumnao {version}\n"));
    folder.words("-V").printed(&format!("arvumnao {version}\n"));
    let all = folder.words("--help");
    assert_eq!((all.status, all.told.as_str()), (0, ""));
    for name in ["route", "check", "log", "report", "picture", "uses"] {
        assert!(all.out.contains(&format!("\n  {name} ")), "{}", all.out);
        let help = folder.words(&format!("{name} --help"));
        assert_eq!((help.status, help.told.as_str()), (0, ""));
        assert!(help.out.contains(&format!("usage: arvumnao {name} JOB")), "{}", help.out);
        assert_eq!(folder.words(&format!("{name} -h x --nothing")).status, 2);
    }
}

#[test]
fn a_full_disk_is_told_and_leaves_nothing() {
    let folder = Folder::new("full");
    folder.write("b.txt", JOB_B);
    for words in ["route b.txt", "log b.txt", "report b.txt", "picture b.txt", "uses b.txt", "--help"] {
        let full = OpenOptions::new().write(true).open("/dev/full").unwrap();
        let mut command = folder.command(&words.split_whitespace().collect::<Vec<_>>());
        let ended: Ended = command.stdout(full).output().unwrap().into();
        ended.told(2, "arvumnao: standard output: No space left on device\n");
    }
    folder.words("route b.txt -o /dev/full").told(2, "arvumnao: /dev/full: No space left on device\n");
    // the log stands although the routes have no room
    folder
        .words("route b.txt -o /dev/full --log b.log")
        .told(2, "arvumnao: /dev/full: No space left on device\n");
    folder
        .words("route b.txt -o b.routes --log /dev/full")
        .told(2, "arvumnao: /dev/full: No space left on device\n");
    assert_eq!(folder.read("b.routes"), ROUTES_B);
    assert_eq!(folder.names(), ["b.log", "b.routes", "b.txt"]);
    // and standard error that can't be written changes nothing
    let full = OpenOptions::new().write(true).open("/dev/full").unwrap();
    let output = folder.command(&["check", "b.txt", "none"]).stderr(full).output().unwrap();
    assert_eq!(output.status.code(), Some(2));
}

/// A file system without room for the whole file: what stood under its name stays, and nothing stands beside it.
#[test]
fn no_file_is_half_written() {
    let folder = Folder::new("half");
    folder.write("b.txt", JOB_B);
    folder.write("kept", "old");
    // no file may be longer than 0 blocks; writing more brings EFBIG, since the signal is ignored
    let script = "trap '' XFSZ; ulimit -f 0; exec \"$0\" route b.txt -o kept";
    let mut shell = Command::new("sh");
    shell.args(["-c", script, env!("CARGO_BIN_EXE_arvumnao")]).current_dir(&folder.0);
    let ended: Ended = shell.output().unwrap().into();
    ended.told(2, "arvumnao: kept: File too large\n");
    assert_eq!(folder.read("kept"), "old");
    assert_eq!(folder.names(), ["b.txt", "kept"]);
}

/// Whoever reads has gone: the command ends quietly.
#[test]
fn a_closed_pipe_is_no_panic() {
    let folder = Folder::new("pipe");
    folder.write("b.txt", JOB_B);
    for words in
        ["route b.txt --log b.log", "log b.txt", "report b.txt", "picture b.txt", "uses b.txt", "--help"]
    {
        let mut command = folder.command(&words.split_whitespace().collect::<Vec<_>>());
        let ended: Ended = command.stdout(broken_pipe()).output().unwrap().into();
        ended.told(2, "");
    }
    // the log was written before that
    assert_eq!(folder.read("b.log").lines().count(), 4);
}

/// A pipe whose reader has ended.
fn broken_pipe() -> Stdio {
    let mut reader = Command::new("true").stdin(Stdio::piped()).spawn().unwrap();
    let mut writer = reader.stdin.take().unwrap();
    reader.wait().unwrap();
    // a process that another test is just beginning may hold the other end for a moment
    while writer.write(b" ").is_ok() {
        thread::sleep(Duration::from_millis(1));
    }
    writer.into()
}

/// A run of the endless job that listens to Ctrl-C; also where these tests run with the signal ignored, as behind nohup.
fn begun(folder: &Folder, words: &str) -> Child {
    folder.write("endless.txt", endless());
    let mut command = Command::new("env");
    command
        .args(["--default-signal=INT,TERM", env!("CARGO_BIN_EXE_arvumnao")])
        .args(words.split_whitespace());
    command.current_dir(&folder.0).stdin(Stdio::null()).stdout(Stdio::piped()).stderr(Stdio::piped());
    let child = command.spawn().unwrap();
    while !listens(child.id()) {
        thread::sleep(Duration::from_millis(5));
    }
    child
}

/// Whether a process catches SIGINT, as the system tells.
fn listens(process: u32) -> bool {
    let status = fs::read_to_string(format!("/proc/{process}/status")).unwrap_or_default();
    let caught = status.lines().find_map(|line| line.strip_prefix("SigCgt:"));
    let mask = caught.map_or(0, |mask| u64::from_str_radix(mask.trim(), 16).unwrap());
    mask & 1 << (2 - 1) != 0
}

fn send(signal: &str, child: &Child) {
    assert!(Command::new("kill").args([signal, &child.id().to_string()]).status().unwrap().success());
}

/// The first Ctrl-C ends a run after its iteration, and the log of the whole iterations is kept: a run can continue from it.
#[test]
fn an_interrupted_run_keeps_its_log() {
    let folder = Folder::new("interrupted");
    for (signal, words, kept) in [
        ("-INT", "route endless.txt --log named.log", "named.log"),
        ("-TERM", "route endless.txt -o out.routes", "endless.log"),
        ("-INT", "route endless.txt", "endless.1.log"),
    ] {
        let child = begun(&folder, words);
        thread::sleep(Duration::from_millis(300));
        send(signal, &child);
        let ended: Ended = child.wait_with_output().unwrap().into();
        assert_eq!((ended.status, ended.out.as_str()), (130, ""), "{}", ended.told);
        assert!(ended.told.contains(&format!("--resume {kept}\n")), "{}", ended.told);
        let log = folder.read(kept);
        let last: usize = log.lines().last().unwrap().split(',').next().unwrap().parse().unwrap();
        assert_eq!(log.lines().count(), 4_096 * last);
        let limit = last + 1;
        let ended =
            folder.words(&format!("route endless.txt --limit {limit} --resume {kept} --log after.log"));
        assert_eq!(ended.status, 3, "{}", ended.told);
        assert!(folder.read("after.log").starts_with(&log));
        assert_eq!(folder.read("after.log").lines().count(), 4_096 * limit);
    }
    assert_eq!(folder.names(), ["after.log", "endless.1.log", "endless.log", "endless.txt", "named.log"]);
}

/// Of several jobs those that were not begun are counted, and those that were routed are written.
#[test]
fn interrupted_jobs_are_told_of() {
    let folder = Folder::new("some");
    folder.write("b.txt", JOB_B);
    let child = begun(&folder, "route b.txt endless.txt b.txt b.txt --json -o out.json");
    thread::sleep(Duration::from_millis(300));
    send("-INT", &child);
    let ended: Ended = child.wait_with_output().unwrap().into();
    assert_eq!((ended.status, ended.out.as_str()), (130, ""), "{}", ended.told);
    assert!(ended
        .told
        .contains("endless.log has its log; to continue: arvumnao route endless.txt --resume endless.log\n"));
    assert!(ended.told.ends_with("2 jobs not begun\n"), "{}", ended.told);
    assert_eq!(folder.read("out.json").lines().count(), 2);
}

/// The second signal ends it at once. Both are sent while it stands still, so that no iteration ends between them.
#[test]
fn a_second_interrupt_ends_at_once() {
    let folder = Folder::new("twice");
    let child = begun(&folder, "route endless.txt");
    for signal in ["-STOP", "-INT", "-TERM", "-CONT"] {
        send(signal, &child);
    }
    let ended: Ended = child.wait_with_output().unwrap().into();
    ended.told(130, "");
    assert_eq!(folder.names(), ["endless.txt"]);
}

/// A run of the command on a terminal of its own, by `script`; what it shows.
fn on_a_terminal(folder: &Folder, words: &str, plain: bool) -> String {
    let line = format!("{} {words}", env!("CARGO_BIN_EXE_arvumnao"));
    let mut script = Command::new("script");
    script
        .args(["-qec", &line, "/dev/null"])
        .current_dir(&folder.0)
        .stdin(Stdio::null())
        .env("TERM", "xterm");
    script.env_remove("NO_COLOR");
    if plain {
        script.env("NO_COLOR", "1");
    }
    String::from_utf8(script.output().unwrap().stdout).unwrap().replace("\r\n", "\n")
}

/// A row an iteration and colours, on a terminal alone.
#[test]
fn a_terminal_sees_rows() {
    let folder = Folder::new("terminal");
    folder.write("b.txt", JOB_B);
    folder.write("limited.txt", limited());
    let rows = "iteration  factor  nets  turns overfull  overuse  tree cost\n        1       0     2      2        1        1        120\n        \
        2      50     2      2        0        0        140\nb.txt: settled in iteration 2, after 4 turns\n";
    assert_eq!(on_a_terminal(&folder, "route b.txt -o out", true), rows);
    assert_eq!(folder.read("out"), ROUTES_B);
    let coloured = on_a_terminal(&folder, "route b.txt -o out", false);
    assert!(coloured.contains("\x1b[32m        0\x1b[0m"), "{coloured}");
    assert_eq!(on_a_terminal(&folder, "route b.txt -q -o out", false), "");
    let refused = on_a_terminal(&folder, "check limited.txt", false);
    assert!(refused.contains("\x1b[31mX,9,1,1\x1b[0m: "), "{refused}");
    // several jobs have a bar, which is taken away
    let many = on_a_terminal(&folder, "route b.txt limited.txt -d made", true);
    assert!(many.contains("] 1 of 2 jobs\r\x1b[K"), "{many:?}");
}
