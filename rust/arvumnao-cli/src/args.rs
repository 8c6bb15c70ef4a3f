//! The arguments: a subcommand's options are a table, and this reads them by it.

use crate::failure::Failure;
use std::ffi::{OsStr, OsString};
use std::ops::RangeInclusive;
use std::os::unix::ffi::{OsStrExt, OsStringExt};
use std::path::Path;

/// An option that a subcommand takes.
pub struct Opt {
    pub short: Option<char>,
    pub long: &'static str,
    /// What its value is called, if it takes one.
    pub value: Option<&'static str>,
    pub says: &'static str,
}

/// The options that every subcommand takes.
pub const COMMON: [Opt; 2] = [
    flag(Some('q'), "quiet", "print only refusals and errors"),
    flag(Some('h'), "help", "print this and end"),
];

/// An option without a value.
pub const fn flag(short: Option<char>, long: &'static str, says: &'static str) -> Opt {
    Opt { short, long, value: None, says }
}

/// An option with a value.
pub const fn valued(short: Option<char>, long: &'static str, value: &'static str, says: &'static str) -> Opt {
    Opt { short, long, value: Some(value), says }
}

/// What was given: the names of jobs, and the options in the order in which they came.
#[derive(Default)]
pub struct Args {
    pub jobs: Vec<OsString>,
    given: Vec<(&'static str, OsString)>,
}

impl Args {
    /// Reads the words after a subcommand's name.
    pub fn read(words: &[OsString], options: &'static [Opt]) -> Result<Args, Failure> {
        let mut args = Args::default();
        let mut rest = words.iter();
        while let Some(word) = rest.next() {
            match word.as_bytes() {
                b"--" => args.jobs.extend(rest.by_ref().cloned()),
                [b'-', b'-', name @ ..] => args.long(name, options, &mut rest)?,
                [b'-', letters @ ..] if !letters.is_empty() => args.short(letters, options, &mut rest)?,
                _ => args.jobs.push(word.clone()),
            }
        }
        Ok(args)
    }

    /// `--limit 9` or `--limit=9`.
    fn long<'w>(
        &mut self,
        word: &[u8],
        options: &'static [Opt],
        rest: &mut impl Iterator<Item = &'w OsString>,
    ) -> Result<(), Failure> {
        let mut halves = word.splitn(2, |byte| *byte == b'=');
        let name = String::from_utf8_lossy(halves.next().unwrap_or_default());
        let option =
            all(options).find(|option| option.long == name).ok_or_else(|| unknown(&name, options))?;
        let value = match (option.value, halves.next()) {
            (None, None) => OsString::new(),
            (None, Some(_)) => return Err(Failure::usage(format!("--{name} takes no value"))),
            (Some(_), Some(value)) => OsString::from_vec(value.to_vec()),
            (Some(_), None) => next(&format!("--{name}"), option, rest)?,
        };
        self.add(option, value)
    }

    /// `-q`, `-j 4`, `-j4`, or several letters after one dash.
    fn short<'w>(
        &mut self,
        letters: &[u8],
        options: &'static [Opt],
        rest: &mut impl Iterator<Item = &'w OsString>,
    ) -> Result<(), Failure> {
        for (place, letter) in letters.iter().enumerate() {
            let named = |option: &&Opt| option.short == Some(char::from(*letter));
            let shown = format!("-{}", letter.escape_ascii());
            let option =
                all(options).find(named).ok_or_else(|| Failure::usage(format!("no option {shown}")))?;
            match (option.value, &letters[place + 1..]) {
                (None, _) => self.add(option, OsString::new())?,
                (Some(_), []) => return self.add(option, next(&shown, option, rest)?),
                (Some(_), value) => return self.add(option, OsString::from_vec(value.to_vec())),
            }
        }
        Ok(())
    }

    fn add(&mut self, option: &'static Opt, value: OsString) -> Result<(), Failure> {
        if option.value.is_some() && self.value(option.long).is_some() {
            return Err(Failure::usage(format!("--{} stands twice", option.long)));
        }
        self.given.push((option.long, value));
        Ok(())
    }

    /// Whether an option was given.
    pub fn has(&self, long: &str) -> bool {
        self.given.iter().any(|(name, _)| *name == long)
    }

    /// An option's value.
    pub fn value(&self, long: &str) -> Option<&OsStr> {
        self.given.iter().find(|(name, _)| *name == long).map(|(_, value)| value.as_os_str())
    }

    /// The same as the name of a file or folder.
    pub fn path(&self, long: &str) -> Option<&Path> {
        self.value(long).map(Path::new)
    }

    /// The same as a number within bounds: digits alone.
    pub fn number(&self, long: &str, bounds: RangeInclusive<u32>) -> Result<Option<u32>, Failure> {
        let Some(value) = self.value(long) else { return Ok(None) };
        let digits = value.as_bytes().iter().all(u8::is_ascii_digit);
        let number = value.to_str().filter(|_| digits).and_then(|text| text.parse().ok());
        match number.filter(|number| bounds.contains(number)) {
            Some(number) => Ok(Some(number)),
            None => Err(Failure::usage(format!(
                "--{long} takes a number from {} to {}, not '{}'",
                bounds.start(),
                bounds.end(),
                value.to_string_lossy()
            ))),
        }
    }

    /// Refuses two options that exclude each other.
    pub fn apart(&self, one: &str, other: &str) -> Result<(), Failure> {
        if self.has(one) && self.has(other) {
            return Err(Failure::usage(format!("--{one} and --{other} don't go together")));
        }
        Ok(())
    }
}

/// A subcommand's options and those of all.
fn all(options: &'static [Opt]) -> impl Iterator<Item = &'static Opt> {
    options.iter().chain(&COMMON)
}

/// The word after an option that takes a value.
fn next<'w>(
    shown: &str,
    option: &Opt,
    rest: &mut impl Iterator<Item = &'w OsString>,
) -> Result<OsString, Failure> {
    let missing = || Failure::usage(format!("{shown} lacks its {}", option.value.unwrap_or("value")));
    rest.next().cloned().ok_or_else(missing)
}

fn unknown(name: &str, options: &'static [Opt]) -> Failure {
    let meant = closest(name, all(options).map(|option| option.long));
    let hint = meant.map_or(String::new(), |long| format!("; did you mean --{long}?"));
    Failure::usage(format!("no option --{name}{hint}"))
}

/// The name that differs from a word in at most two letters, if there is one.
pub fn closest(word: &str, names: impl Iterator<Item = &'static str>) -> Option<&'static str> {
    let near = names.map(|name| (distance(word.as_bytes(), name.as_bytes()), name));
    near.filter(|(distance, _)| *distance <= 2).min().map(|(_, name)| name)
}

/// How many letters have to be changed, added or left out.
fn distance(one: &[u8], other: &[u8]) -> usize {
    let mut row: Vec<usize> = (0..=other.len()).collect();
    for (place, letter) in one.iter().enumerate() {
        let mut before = place;
        row[0] = place + 1;
        for (column, beside) in other.iter().enumerate() {
            let changed = before + usize::from(letter != beside);
            before = row[column + 1];
            row[column + 1] = changed.min(before + 1).min(row[column] + 1);
        }
    }
    row[other.len()]
}

#[cfg(test)]
mod tests {
    use super::*;

    const OPTIONS: &[Opt] = &[
        valued(Some('j'), "jobs", "N", "at a time"),
        valued(None, "limit", "N", "the limit"),
        flag(None, "json", "as JSON"),
    ];

    fn read(words: &[&str]) -> Result<Args, String> {
        let words: Vec<OsString> = words.iter().map(OsString::from).collect();
        Args::read(&words, OPTIONS).map_err(|failure| failure.to_string())
    }

    #[test]
    fn values_stand_after_a_blank_an_equals_sign_or_the_letter() {
        for words in
            [&["-j4", "a"][..], &["-j", "4", "a"], &["--jobs=4", "a"], &["a", "--jobs", "4"], &["-qj4", "a"]]
        {
            let args = read(words).unwrap();
            assert_eq!(args.number("jobs", 1..=9).unwrap(), Some(4));
            assert_eq!(args.jobs, ["a"]);
        }
    }

    #[test]
    fn a_dash_alone_and_what_follows_two_dashes_are_jobs() {
        assert_eq!(read(&["-", "--json", "--", "-j", "--json"]).unwrap().jobs, ["-", "-j", "--json"]);
    }

    #[test]
    fn what_is_not_understood_is_said() {
        let told = |words: &[&str]| read(words).err().unwrap();
        assert_eq!(told(&["--lmit", "3"]), "no option --lmit; did you mean --limit?");
        assert_eq!(told(&["--frobnicate"]), "no option --frobnicate");
        assert_eq!(told(&["-x"]), "no option -x");
        assert_eq!(told(&["--json=1"]), "--json takes no value");
        assert_eq!(told(&["--limit"]), "--limit lacks its N");
        assert_eq!(told(&["-j", "1", "-j", "2"]), "--jobs stands twice");
        for wrong in ["", "x", "-1", "+1", " 1", "0", "10", "99999999999"] {
            let failure = read(&["--limit", wrong]).unwrap().number("limit", 1..=9).unwrap_err();
            assert_eq!(failure.to_string(), format!("--limit takes a number from 1 to 9, not '{wrong}'"));
        }
    }
}
