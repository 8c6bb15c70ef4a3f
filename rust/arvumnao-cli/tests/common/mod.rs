//! What the tests of the command share: a folder for each, and the command run in it.
#![allow(dead_code)]

use std::ffi::OsStr;
use std::fs;
use std::io::Write;
use std::path::{Path, PathBuf};
use std::process::{Command, Output, Stdio};

pub const JOB_B: &str = include_str!("../../../../examples/job_b.txt");
pub const TIMED: &str = include_str!("../../../../examples/timed.txt");
pub const CROWDED: &str = include_str!("../../../../examples/job_crowded.txt");
/// What the program `router` prints for job B.
pub const ROUTES_B: &str = include_str!("../../../../crates/router/stdout");

/// Job B under a limit of 1, which it doesn't settle by.
pub fn limited() -> String {
    JOB_B.replacen("F,6,6,2,2", "F,6,6,2,1", 1)
}

/// Job B without the switches to wire 2 and wire 3 of node 0: sink 4 is out of reach.
pub fn unreachable() -> String {
    JOB_B.replacen("F,6,6,2,2", "F,6,4,2,2", 1).replace("E,0,2\nE,0,3\n", "")
}

/// What came of a run: its status, standard output and standard error.
#[derive(Debug, PartialEq, Eq)]
pub struct Ended {
    pub status: i32,
    pub out: String,
    pub told: String,
}

impl From<Output> for Ended {
    fn from(output: Output) -> Ended {
        let text = |bytes: Vec<u8>| String::from_utf8(bytes).unwrap();
        Ended {
            status: output.status.code().unwrap_or(-1),
            out: text(output.stdout),
            told: text(output.stderr),
        }
    }
}

impl Ended {
    /// Nothing was told, and so much printed.
    #[track_caller]
    pub fn printed(self, out: &str) {
        assert_eq!(self, Ended { status: 0, out: out.to_string(), told: String::new() });
    }

    /// Nothing was printed, and so much told.
    #[track_caller]
    pub fn told(self, status: i32, told: &str) {
        assert_eq!(self, Ended { status, out: String::new(), told: told.to_string() });
    }
}

/// A folder of a test's own, empty.
pub struct Folder(pub PathBuf);

impl Folder {
    pub fn new(name: &str) -> Folder {
        let path = Path::new(env!("CARGO_TARGET_TMPDIR")).join(name);
        let _ = fs::remove_dir_all(&path);
        fs::create_dir_all(&path).unwrap();
        Folder(path)
    }

    pub fn write(&self, name: &str, text: impl AsRef<[u8]>) {
        fs::write(self.0.join(name), text).unwrap();
    }

    pub fn read(&self, name: &str) -> String {
        fs::read_to_string(self.0.join(name)).unwrap()
    }

    /// The names in it, sorted.
    pub fn names(&self) -> Vec<String> {
        let entries = fs::read_dir(&self.0).unwrap();
        let mut names: Vec<String> =
            entries.map(|entry| entry.unwrap().file_name().into_string().unwrap()).collect();
        names.sort();
        names
    }

    /// The command in this folder, before it is run.
    pub fn command(&self, args: &[impl AsRef<OsStr>]) -> Command {
        let mut command = Command::new(env!("CARGO_BIN_EXE_arvumnao"));
        command.args(args).current_dir(&self.0).stdin(Stdio::null());
        command
    }

    pub fn run(&self, args: &[impl AsRef<OsStr>]) -> Ended {
        self.command(args).output().unwrap().into()
    }

    /// The same with words that are parted by blanks.
    pub fn words(&self, args: &str) -> Ended {
        self.run(&args.split_whitespace().collect::<Vec<_>>())
    }

    /// The same with this on standard input.
    pub fn fed(&self, args: &str, input: &str) -> Ended {
        let mut command = self.command(&args.split_whitespace().collect::<Vec<_>>());
        command.stdin(Stdio::piped()).stdout(Stdio::piped()).stderr(Stdio::piped());
        let mut child = command.spawn().unwrap();
        child.stdin.take().unwrap().write_all(input.as_bytes()).unwrap();
        child.wait_with_output().unwrap().into()
    }
}

/// A job of 4,096 nodes and 512 nets of 8 sinks in eight layers, which doesn't settle: it takes seconds.
pub fn endless() -> String {
    const LAYER: usize = 512;
    const JUMPS: [usize; 8] = [0, 1, 3, 9, 27, 81, 243, 400];
    let mut text = format!("F,{},{},{LAYER},100\n", 8 * LAYER, 7 * LAYER * JUMPS.len());
    for node in 0..8 * LAYER {
        let (kind, capacity) = match node / LAYER {
            0 => (0, 1),
            7 => (1, 255),
            layer => (3 + layer, 1),
        };
        text += &format!("N,{node},{kind},{capacity}\n");
    }
    for node in 0..7 * LAYER {
        let below = (node / LAYER + 1) * LAYER;
        let mut targets = JUMPS.map(|jump| below + (node + jump) % LAYER);
        targets.sort_unstable();
        targets.iter().for_each(|target| text += &format!("E,{node},{target}\n"));
    }
    for net in 0..LAYER {
        text += &format!("S,{net},{net}\n");
        (0..8).for_each(|sink| text += &format!("T,{net},{}\n", 7 * LAYER + (net * 5 + sink * 61) % LAYER));
    }
    text
}
