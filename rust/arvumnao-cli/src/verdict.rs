//! A refusal as compilers report it: the file, the line, the numbers, the reason, and the line itself with a caret.

use crate::console::{Colour, Console};
use crate::files::Text;
use arvumnao::{LineFault, Refusal};

/// The letters of a line that are shown.
const SHOWN: usize = 96;

/// The lines that say why a job text, or the job in it, was refused.
pub fn of_job(text: &Text, refusal: &Refusal, console: &Console) -> String {
    match refusal {
        Refusal::Line(fault) => of_line(text, fault, &x_line(refusal), console),
        Refusal::Unreachable { line, .. } => {
            let place = match line_number(&text.bytes, line.as_bytes()) {
                Some(number) => format!("{}:{number}", text.name),
                None => text.name.clone(),
            };
            told(&place, &x_line(refusal), &refusal.to_string(), console)
        }
        _ => told(&text.name, &x_line(refusal), &refusal.to_string(), console),
    }
}

/// The lines that say why a log text, or the log in it, was refused.
pub fn of_log(text: &Text, refusal: &Refusal, console: &Console) -> String {
    match refusal {
        Refusal::LogLine(fault) => of_line(text, fault, "", console),
        _ => told(&text.name, &x_line(refusal), &refusal.to_string(), console),
    }
}

/// The refusal's numbers as the programs print them; nothing if the library didn't refuse.
pub fn x_line(refusal: &Refusal) -> String {
    let numbers = refusal.numbers();
    if numbers.is_empty() {
        return String::new();
    }
    numbers.iter().fold(String::from("X"), |line, number| format!("{line},{number}"))
}

/// One line: where, the numbers, and the reason.
pub fn told(place: &str, numbers: &str, reason: &str, console: &Console) -> String {
    let numbers = match numbers {
        "" => String::new(),
        _ => format!("{}: ", console.paint(Colour::Red, numbers)),
    };
    format!("{}: {numbers}{reason}\n", console.paint(Colour::Bold, place))
}

fn of_line(text: &Text, fault: &LineFault, numbers: &str, console: &Console) -> String {
    let reason = fault.reason.as_deref().unwrap_or("is faulty");
    let head = told(&format!("{}:{}", text.name, fault.line), numbers, reason, console);
    format!("{head}{}", excerpt(&text.bytes, fault, console))
}

/// The line and a caret under what is wrong with it; nothing if the text ends before it.
fn excerpt(text: &[u8], fault: &LineFault, console: &Console) -> String {
    let line = text.split(|byte| *byte == b'\n').nth((fault.line as usize).wrapping_sub(1));
    let Some((line, _)) = line.zip(fault.quoted.as_ref()) else { return String::new() };
    let column = fault.column.unwrap_or(0).min(line.len());
    // of a long line the part around the caret
    let first = (column + 1).saturating_sub(SHOWN * 3 / 4);
    let part = &line[first..line.len().min(first + SHOWN)];
    let shown = |bytes: &[u8]| bytes.escape_ascii().to_string();
    let dots = |cut: bool| if cut { ".." } else { "" };
    let before = format!("{}{}", dots(first > 0), shown(&line[first..column]));
    let (number, margin) = (fault.line, " ".repeat(fault.line.to_string().len()));
    let caret = console.paint(Colour::Green, "^");
    format!(
        "  {number} | {}{}{}\n  {margin} | {}{caret}\n",
        dots(first > 0),
        shown(part),
        dots(first + part.len() < line.len()),
        " ".repeat(before.len())
    )
}

/// The number, from 1, of the first line that is this one.
fn line_number(text: &[u8], wanted: &[u8]) -> Option<usize> {
    text.split(|byte| *byte == b'\n').position(|line| line == wanted).map(|place| place + 1)
}
