//! The lines that the test programs print.

use crate::cases::Case;
use plain::Answer;
use std::fmt::Display;

/// Prints a case's line.
pub fn line(case: &Case, parts: &[String]) {
    println!("{}:{}", case.name, parts.concat());
}

fn joined<T: Display>(before: &str, entries: &[T]) -> String {
    entries.iter().map(|entry| format!("{before}{entry}")).collect()
}

/// `X` and the numbers of a refusal, if there is one.
pub fn refusal(answer: &Answer) -> String {
    if answer.refusal.is_empty() {
        return String::new();
    }
    format!(" X{}", joined(",", &answer.refusal))
}

/// `=` and a call's own numbers.
pub fn numbers(numbers: &[u64]) -> String {
    format!(" ={}", joined(" ", numbers))
}

/// A refusal, or else the call's own numbers.
pub fn answer(answer: &Answer) -> String {
    if answer.refusal.is_empty() {
        return numbers(&answer.numbers);
    }
    refusal(answer)
}

/// A slice's entries after a bar.
pub fn slice<T: Display>(entries: &[T]) -> String {
    format!(" |{}", joined(" ", entries))
}

/// A text after a bar: `~` is a 7, `/` an LF, any other byte that has no place in a routes text its number.
pub fn text(bytes: &[u8]) -> String {
    let shown = bytes.iter().map(|&b| match b {
        7 => String::from("~"),
        b'\n' => String::from("/"),
        b',' | b'0'..=b'9' | b'A'..=b'Z' => String::from(b as char),
        _ => format!("<{b}>"),
    });
    format!(" | {}", shown.collect::<String>())
}
