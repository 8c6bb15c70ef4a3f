//! Runs a built program on a text that reaches it in one of three ways.

use job::Rng;
use std::fs::{self, File};
use std::io::{self, Write};
use std::os::fd::OwnedFd;
use std::os::unix::net::UnixDatagram;
use std::path::PathBuf;
use std::process::{Child, Command, Stdio};

/// How standard input brings a text.
#[derive(Clone, Copy, Debug)]
pub enum Way {
    /// A pipe into which the whole text is written at once.
    Pipe,
    /// A file.
    File,
    /// Pieces of at most so many bytes, each of which a read gets by itself.
    Pieces(usize),
}

/// A program, and the file that brings it its texts.
pub struct Program {
    path: PathBuf,
    file: PathBuf,
}

impl Program {
    /// The one of this name in the folder ARVUMNAO_PROGRAMS, else where `tools/build` puts it.
    pub fn find(name: &str) -> Result<Program, String> {
        let built = concat!(env!("CARGO_MANIFEST_DIR"), "/../../target/bin");
        let path = PathBuf::from(std::env::var_os("ARVUMNAO_PROGRAMS").unwrap_or(built.into())).join(name);
        if !path.exists() {
            return Err(format!("{} is missing: build it with tools/build {name}", path.display()));
        }
        let file = std::env::temp_dir().join(format!("arvumnao-{name}-{}", std::process::id()));
        Ok(Program { path, file })
    }

    /// What the program prints. It must end well and say nothing on standard error.
    pub fn print(&self, text: &[u8], way: Way, rng: &mut Rng) -> Result<Vec<u8>, String> {
        let child = match way {
            Way::Pipe => self.by_pipe(text),
            Way::File => self.by_file(text),
            Way::Pieces(most) => self.in_pieces(text, most, rng),
        };
        let output = child.and_then(Child::wait_with_output).map_err(|error| error.to_string())?;
        if !output.status.success() || !output.stderr.is_empty() {
            return Err(format!("{}, standard error \"{}\"", output.status, output.stderr.escape_ascii()));
        }
        Ok(output.stdout)
    }

    fn start(&self, input: Stdio) -> io::Result<Child> {
        Command::new(&self.path).stdin(input).stdout(Stdio::piped()).stderr(Stdio::piped()).spawn()
    }

    fn by_pipe(&self, text: &[u8]) -> io::Result<Child> {
        let mut child = self.start(Stdio::piped())?;
        let mut pipe = child.stdin.take().expect("standard input is a pipe");
        taken(pipe.write_all(text))?;
        Ok(child)
    }

    fn by_file(&self, text: &[u8]) -> io::Result<Child> {
        fs::write(&self.file, text)?;
        self.start(Stdio::from(File::open(&self.file)?))
    }

    /// A read gets one datagram, however many wait. One of no bytes is the end.
    fn in_pieces(&self, text: &[u8], most: usize, rng: &mut Rng) -> io::Result<Child> {
        let (ours, theirs) = UnixDatagram::pair()?;
        let child = self.start(Stdio::from(OwnedFd::from(theirs)))?;
        let mut rest = text;
        loop {
            let (piece, after) = rest.split_at(rng.within(1, most).min(rest.len()));
            let more = taken(ours.send(piece).map(drop))?;
            if piece.is_empty() || !more {
                return Ok(child);
            }
            rest = after;
        }
    }
}

impl Drop for Program {
    fn drop(&mut self) {
        let _ = fs::remove_file(&self.file);
    }
}

/// Whether the program took what was sent: once it has the 65,537 bytes that tell it of too many it need not.
fn taken(sent: io::Result<()>) -> io::Result<bool> {
    use io::ErrorKind::{BrokenPipe, ConnectionRefused, ConnectionReset};
    match sent {
        Ok(()) => Ok(true),
        Err(error) if matches!(error.kind(), BrokenPipe | ConnectionRefused | ConnectionReset) => Ok(false),
        Err(error) => Err(error),
    }
}
