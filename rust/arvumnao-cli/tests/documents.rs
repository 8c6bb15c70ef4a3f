//! The documents: every subcommand and option is described, and every example is run.

mod common;

use common::Folder;
use std::fs;
use std::path::Path;
use std::process::Command;

fn document(path: &str) -> String {
    fs::read_to_string(format!("{}/{path}", env!("CARGO_MANIFEST_DIR"))).unwrap()
}

/// The manual page and docs/COMMAND.md name every subcommand and option that the command takes.
#[test]
fn every_option_is_described() {
    let folder = Folder::new("options");
    let manual = document("arvumnao.1").replace("\\-", "-");
    let page = document("../../docs/COMMAND.md");
    let mut options = 0;
    for name in ["route", "check", "log", "audit", "report", "picture", "uses"] {
        assert!(manual.contains(&format!(".B {name} ")), "{name}");
        assert!(page.contains(&format!("\n## {name}\n")), "{name}");
        let help = folder.words(&format!("{name} --help")).out;
        for line in help.lines().filter(|line| line.starts_with("  -") || line.starts_with("      --")) {
            let long = line.split_whitespace().find(|word| word.starts_with("--")).unwrap();
            assert!(manual.contains(long), "{name} {long} in the manual page");
            assert!(page.contains(long), "{name} {long} in docs/COMMAND.md");
            options += 1;
        }
    }
    assert_eq!(options, 8 + 4 + 5 + 4 + 4 + 14);
}

/// The command and the wrapper are of one version.
#[test]
fn versions() {
    let version = format!("version = \"{}\"", env!("CARGO_PKG_VERSION"));
    assert!(document("../arvumnao/Cargo.toml").contains(&version));
}

/// The fenced blocks of a word.
fn blocks(document: &str, word: &str) -> Vec<String> {
    let fence = format!("\n```{word}\n");
    document.split(&fence).skip(1).map(|rest| format!("{}\n", rest.split("\n```").next().unwrap())).collect()
}

/// A folder with the jobs of examples/, or with that folder in it.
fn examples(name: &str, within: &str) -> Folder {
    let folder = Folder::new(name);
    fs::create_dir_all(folder.0.join(within)).unwrap();
    let texts = fs::read_dir(format!("{}/../../examples", env!("CARGO_MANIFEST_DIR"))).unwrap();
    for text in texts.map(|entry| entry.unwrap().path()) {
        fs::copy(&text, folder.0.join(within).join(text.file_name().unwrap())).unwrap();
    }
    folder
}

/// Runs a block's commands, the lines after `$ `, in one shell; what a terminal would show of them.
fn shown(folder: &Folder, block: &str) -> String {
    let mut script = String::from("exec 2>&1\n");
    for command in block.lines().filter_map(|line| line.strip_prefix("$ ")) {
        let quoted = command.replace('\'', "'\\''");
        // the status of the command before is kept
        script += &format!("last=$?; printf '$ %s\\n' '{quoted}'; (exit $last)\n{command}\n");
    }
    let command = Path::new(env!("CARGO_BIN_EXE_arvumnao")).parent().unwrap();
    let path = format!("{}:{}", command.display(), std::env::var("PATH").unwrap());
    let output = Command::new("bash").args(["-c", &script]).env("PATH", path).current_dir(&folder.0).output();
    String::from_utf8(output.unwrap().stdout).unwrap()
}

fn installed(program: &str) -> bool {
    Command::new(program).arg("--version").output().is_ok()
}

/// The examples print what the document shows.
fn run_all(document: &str, folder: &Folder) -> usize {
    let blocks = blocks(document, "console");
    for block in &blocks {
        if block.contains("$ parallel") && !installed("parallel") {
            println!("left out: GNU parallel is not installed (Debian's package parallel)");
            continue;
        }
        let shown = shown(folder, block);
        assert!(shown == *block, "shown:\n{shown}\nin the document:\n{block}");
    }
    blocks.len()
}

#[test]
fn the_examples_of_the_command() {
    assert_eq!(run_all(&document("../../docs/COMMAND.md"), &examples("command_examples", ".")), 13);
}

#[test]
fn the_examples_of_the_readme() {
    assert_eq!(run_all(&document("../../README.md"), &examples("readme_examples", "examples")), 2);
}

/// What a terminal shows of a run, by `script`.
#[test]
fn the_rows_of_the_command() {
    let folder = examples("command_rows", ".");
    let line = format!("{} route job_b.txt -o out", env!("CARGO_BIN_EXE_arvumnao"));
    let mut script = Command::new("script");
    script.args(["-qec", &line, "/dev/null"]).current_dir(&folder.0).env("NO_COLOR", "1");
    let shown = String::from_utf8(script.output().unwrap().stdout).unwrap().replace("\r\n", "\n");
    assert_eq!(blocks(&document("../../docs/COMMAND.md"), "rows"), [shown]);
}
