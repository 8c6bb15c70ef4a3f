//! Runs the built programs, `load | router`, beside a plain generator and the plain router: target/bin, or the folder
//! that is named as the only argument.

mod generator;

use job::Rng;
use std::io::Write;
use std::path::{Path, PathBuf};
use std::process::{exit, Command, Stdio};

/// Loads that are also routed.
const LOADS: usize = 360;
/// Lines that are only asked for.
const LINES: usize = 2_000;

/// Inputs that are turned away, each with its field's place as 02 and its readings give it.
const TURNED_AWAY: [(&str, u32); 40] = [
    ("", 0),
    ("\n", 0),
    (",8,1\n", 0),
    ("x,8,1\n", 0),
    ("-5,8,1\n", 0),
    ("+5,8,1\n", 0),
    (" 5,8,1\n", 0),
    ("5 ,8,1\n", 0),
    ("05,8,1\n", 0),
    ("00,8,1\n", 0),
    ("4294967296,8,1\n", 0),
    ("9999999999,8,1\n", 0),
    ("12345678901,8,1\n", 0),
    ("5\r\n", 0),
    ("5", 1),
    ("5\n", 1),
    ("5\n8,1\n", 1),
    ("5,", 1),
    ("5,\n", 1),
    ("5,,1\n", 1),
    ("5,7,1\n", 1),
    ("5,257,1\n", 1),
    ("5,08,1\n", 1),
    ("5,1000000,1\n", 1),
    ("5,8x,1\n", 1),
    ("5,8", 2),
    ("5,8\n", 2),
    ("5,8,", 2),
    ("5,8,\n", 2),
    ("5,8,0\n", 2),
    ("5,8,65\n", 2),
    ("5,8,01\n", 2),
    ("5,8,1000000\n", 2),
    ("5,8,1\r\n", 2),
    ("5,8,1x\n", 2),
    ("5,8,1", 3),
    ("5,8,1,9", 3),
    ("5,8,1,\n", 3),
    ("5,8,1\n\n", 3),
    ("5,8,1\n5,8,1\n", 3),
];

/// What a program prints for its input. A program that has read enough may close its input before the end.
fn printed(program: &Path, input: &[u8]) -> String {
    let mut child = Command::new(program)
        .stdin(Stdio::piped())
        .stdout(Stdio::piped())
        .spawn()
        .unwrap_or_else(|e| panic!("{}: {e}", program.display()));
    let mut stdin = child.stdin.take().expect("its input is a pipe");
    let bytes = input.to_vec();
    let writer = std::thread::spawn(move || {
        let _ = stdin.write_all(&bytes);
    });
    let output = child.wait_with_output().expect("it ends");
    writer.join().expect("the input is written");
    assert!(output.status.success(), "{} failed", program.display());
    String::from_utf8_lossy(&output.stdout).into_owned()
}

/// What the router must print for a job's text, by the plain router.
fn routed(text: &[u8]) -> String {
    let mut lent = plain::Lent::program();
    let bytes = lent.respond(text, plain::write);
    String::from_utf8_lossy(&lent.buffer[..bytes]).into_owned()
}

fn same(what: &str, input: &[u8], got: &str, expected: &str) {
    if got != expected {
        let start = String::from_utf8_lossy(&input[..input.len().min(60)]).into_owned();
        eprintln!(
            "{what} differs on {start:?} ({} bytes)\n  printed {got:?}\n  expected {expected:?}",
            input.len()
        );
        exit(1);
    }
}

/// Inputs that are longer than anything a program would keep.
fn long_inputs() -> Vec<(Vec<u8>, u32)> {
    let with = |head: &str, byte: u8, count: usize| [head.as_bytes(), &vec![byte; count]].concat();
    let mut inputs = vec![
        (with("", b'7', 200_000), 0),
        (with("", b'0', 200_000), 0),
        (with("", b',', 200_000), 0),
        (with("5,", b'8', 200_000), 1),
        (with("5,8,", b'1', 200_000), 2),
        (with("5,8,1\n", b'x', 200_000), 3),
        (with("5,8,1\n", b'\n', 200_000), 3),
        (with("5,8,1,", b'9', 200_000), 3),
    ];
    // the longest line of whole fields, then bytes after it, one more each time
    for count in 1..60 {
        inputs.push((with("4294967295,256,64\n", b'\n', count), 3));
        inputs.push((with("5,8,1\n", b'1', count), 3));
    }
    inputs
}

/// A line of the right form or nearly so.
fn line(rng: &mut Rng) -> Vec<u8> {
    let seed = rng.within(0, u32::MAX as usize);
    let mut text = format!("{seed},{},{}\n", rng.within(6, 260), rng.within(0, 66)).into_bytes();
    for _ in 0..rng.within(0, 3) {
        let at = rng.within(0, text.len() - 1);
        match rng.within(0, 2) {
            0 => text[at] = rng.pick(b"0123456789,\n\r x"),
            1 => text.insert(at, rng.pick(b"0123456789,\n\r x")),
            _ => {
                text.remove(at);
            }
        }
    }
    text
}

fn main() {
    let folder = std::env::args().nth(1).unwrap_or_else(|| "../target/bin".to_string());
    let (load, routes) = (PathBuf::from(&folder).join("load"), PathBuf::from(&folder).join("router"));
    for (input, place) in TURNED_AWAY {
        same("load", input.as_bytes(), &printed(&load, input.as_bytes()), &format!("X,17,{place}\n"));
        same(
            "the plain generator",
            input.as_bytes(),
            &generator::shown(input.as_bytes()),
            &format!("X,17,{place}\n"),
        );
    }
    for (input, place) in long_inputs() {
        same("load", &input, &printed(&load, &input), &format!("X,17,{place}\n"));
    }
    let mut rng = Rng::new(12);
    for _ in 0..LINES {
        let input = line(&mut rng);
        same("load", &input, &printed(&load, &input), &generator::shown(&input));
    }
    let mut outcomes = [0; 3];
    for k in 0..LOADS {
        let seed = [0, 1, u32::MAX as usize, 1 << 31][k % 4]
            ^ if k < 16 { 0 } else { rng.within(0, u32::MAX as usize) };
        let (nodes, nets) = match k % 12 {
            0 => (8, 1),
            1 => (8, 64),
            2 => (256, 1),
            3 if k < 60 => (256, 64),
            _ => (rng.within(8, if k % 3 == 0 { 256 } else { 64 }), rng.within(1, 12)),
        };
        let input = format!("{seed},{nodes},{nets}\n").into_bytes();
        let text = printed(&load, &input);
        same("load", &input, &text, &generator::shown(&input));
        let answer = printed(&routes, text.as_bytes());
        same("router", &input, &answer, &routed(text.as_bytes()));
        outcomes[if answer.starts_with('R') { 0 } else { 1 + usize::from(answer.starts_with("X,7,")) }] += 1;
    }
    let [accepted, full, unreachable] = outcomes;
    println!(
        "loads: {LOADS} through both programs ({accepted} routed, {unreachable} with a sink out of reach, {full} unsettled), \
         {LINES} other lines, {} refusals: no difference",
        TURNED_AWAY.len() + long_inputs().len()
    );
}
