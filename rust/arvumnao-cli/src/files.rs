//! Files. Job texts are read from files or from standard input. A file is written completely or not at all.

use crate::failure::Failure;
use std::ffi::{OsStr, OsString};
use std::fs::{self, File, OpenOptions};
use std::io::{self, Read, Write};
use std::os::unix::fs::MetadataExt;
use std::path::{Path, PathBuf};
use std::process;

/// More bytes than any job text has. Bytes after them are not read: the first fault of a longer text comes before them.
const TEXT_MOST: u64 = 1 << 20;

/// A job text with the name by which messages call it.
pub struct Text {
    pub name: String,
    pub bytes: Vec<u8>,
}

impl Text {
    /// Reads the job text of the file of that name, or of standard input for `-`.
    pub fn read(name: &OsStr) -> Result<Text, Failure> {
        Text::up_to(name, TEXT_MOST)
    }

    /// The same for a text of any length, such as a log.
    pub fn read_long(name: &OsStr) -> Result<Text, Failure> {
        Text::up_to(name, u64::MAX)
    }

    fn up_to(name: &OsStr, most: u64) -> Result<Text, Failure> {
        let name_shown = shown(name);
        let bytes = read(name, most).map_err(|error| Failure::file(&name_shown, &error))?;
        Ok(Text { name: name_shown, bytes })
    }
}

/// The name of a file as messages have it.
pub fn shown(name: &OsStr) -> String {
    if name == "-" {
        String::from("<stdin>")
    } else {
        name.to_string_lossy().into_owned()
    }
}

fn read(name: &OsStr, most: u64) -> io::Result<Vec<u8>> {
    let mut bytes = Vec::new();
    if name == "-" {
        io::stdin().lock().take(most).read_to_end(&mut bytes)?;
    } else {
        File::open(name)?.take(most).read_to_end(&mut bytes)?;
    }
    Ok(bytes)
}

/// Where data goes.
#[derive(Clone, Debug, PartialEq, Eq)]
pub enum Output {
    Standard,
    File(PathBuf),
}

impl Output {
    /// The file of that name; standard output for `-` and for none.
    pub fn named(name: Option<&Path>) -> Output {
        match name {
            None => Output::Standard,
            Some(name) if name == Path::new("-") => Output::Standard,
            Some(name) => Output::File(name.to_path_buf()),
        }
    }

    /// Tests, before any work is done, that the file can be written and is none of the jobs.
    pub fn test(&self, jobs: &[OsString]) -> Result<(), Failure> {
        let Output::File(path) = self else { return Ok(()) };
        if jobs.iter().any(|job| same(path, Path::new(job))) {
            let why = String::from("is a job that is named, and would be written over");
            return Err(Failure::File(path.display().to_string(), why));
        }
        let test = || -> io::Result<()> {
            match special(path)? {
                true => Ok(()),
                false => Whole::begin(path).map(drop),
            }
        };
        test().map_err(|error| Failure::file(path.display(), &error))
    }

    pub fn write(&self, bytes: &[u8]) -> Result<(), Failure> {
        match self {
            Output::Standard => print(bytes),
            Output::File(path) => {
                write_file(path, bytes).map_err(|error| Failure::file(path.display(), &error))
            }
        }
    }
}

/// Writes to standard output.
fn print(bytes: &[u8]) -> Result<(), Failure> {
    let mut output = io::stdout().lock();
    output.write_all(bytes).and_then(|()| output.flush()).map_err(|error| match error.kind() {
        io::ErrorKind::BrokenPipe => Failure::ClosedPipe,
        _ => Failure::file("standard output", &error),
    })
}

/// Whether two names mean the same file.
fn same(one: &Path, other: &Path) -> bool {
    match (fs::metadata(one), fs::metadata(other)) {
        (Ok(one), Ok(other)) => one.is_file() && (one.dev(), one.ino()) == (other.dev(), other.ino()),
        _ => false,
    }
}

/// Whether the name is a pipe, a device or the like, which is written to directly. A folder is an error.
fn special(path: &Path) -> io::Result<bool> {
    match fs::metadata(path) {
        Ok(found) if found.is_dir() => Err(io::Error::other("is a folder")),
        Ok(found) => Ok(!found.is_file()),
        Err(_) => Ok(false),
    }
}

fn write_file(path: &Path, bytes: &[u8]) -> io::Result<()> {
    if special(path)? {
        return OpenOptions::new().write(true).open(path)?.write_all(bytes);
    }
    Whole::begin(path)?.end(bytes)
}

/// A file that appears under its name when all of it is written. Until then, and if that fails, an older file stays.
struct Whole {
    target: PathBuf,
    beside: PathBuf,
    file: File,
}

impl Whole {
    /// A file beside the target, since it can be renamed only within one file system.
    fn begin(path: &Path) -> io::Result<Whole> {
        // follow links, so that they stay links
        let target = fs::canonicalize(path).unwrap_or_else(|_| path.to_path_buf());
        let name = target.file_name().ok_or_else(|| io::Error::other("is no name of a file"))?;
        let beside = target.with_file_name(format!(".{}.{}.part", name.to_string_lossy(), process::id()));
        let file = OpenOptions::new().write(true).create_new(true).open(&beside)?;
        Ok(Whole { target, beside, file })
    }

    fn end(mut self, bytes: &[u8]) -> io::Result<()> {
        self.file.write_all(bytes)?;
        if let Ok(old) = fs::metadata(&self.target) {
            self.file.set_permissions(old.permissions())?;
        }
        self.file.sync_all()?;
        fs::rename(&self.beside, &self.target)
    }
}

impl Drop for Whole {
    /// Removes the file beside the target. After the renaming there is none.
    fn drop(&mut self) {
        let _ = fs::remove_file(&self.beside);
    }
}

/// The first of NAME.log, NAME.1.log, .. that doesn't exist in the folder: an old log is never overwritten.
pub fn unused(folder: &Path, name: &str) -> PathBuf {
    let numbered = (1..).map(|number| folder.join(format!("{name}.{number}.log")));
    let mut names = std::iter::once(folder.join(format!("{name}.log"))).chain(numbered);
    names.find(|path| !path.exists()).unwrap_or_default()
}

/// A job's name without folder and ending, for the files that are made of it.
pub fn stem(job: &OsStr) -> String {
    if job == "-" {
        return String::from("stdin");
    }
    let stem = Path::new(job).file_stem().unwrap_or(job);
    stem.to_string_lossy().into_owned()
}
