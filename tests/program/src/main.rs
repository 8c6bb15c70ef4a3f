//! Sets the built programs `router` and `picture` beside the plain crate: at their bounds, and on many seeded texts, each by pipe, by file
//! and in pieces to `router` and by pipe to `picture`. It fails where they differ, and where a run of at least the default length leaves an
//! outcome out.
//!
//! program [TEXTS] [SEED]

mod bounds;
mod expected;
mod feed;
mod outcomes;
mod seeded;

use bounds::Bound;
use expected::Printed;
use feed::{Program, Way};
use job::Rng;
use outcomes::Outcomes;
use std::process::ExitCode;
use std::time::Instant;

const TEXTS: u64 = 2_400;
const SEED: u64 = 1;

/// A run of the programs on many texts.
struct Run {
    router: Program,
    picture: Program,
    outcomes: Outcomes,
    /// Where pieces end.
    rng: Rng,
}

impl Run {
    /// What a text must be answered with, and is in each of the ways.
    fn compare(&mut self, text: &[u8], ways: &[Way]) -> Result<Printed, String> {
        let expected = expected::printed(text);
        for way in ways {
            same(&self.router, text, *way, &mut self.rng, &expected.routes)?;
            self.outcomes.count_way(*way);
        }
        same(&self.picture, text, Way::Pipe, &mut self.rng, &expected.picture)?;
        self.outcomes.count_answer(text, &expected.routes);
        self.outcomes.count_picture(&expected.picture);
        Ok(expected)
    }

    /// A bound in every way. The answer must also be the one that the bound is for.
    fn bound(&mut self, bound: &Bound) -> Result<(), String> {
        let ways = [Way::Pipe, Way::File, Way::Pieces(4_096), Way::Pieces(1)];
        let printed = self.compare(&bound.text, &ways).map_err(|fault| format!("{}: {fault}", bound.name))?;
        let printed = if bound.picture { printed.picture } else { printed.routes };
        if !printed.starts_with(bound.answer.as_bytes()) {
            return Err(format!("{}: {} is not {:?}", bound.name, shown(&printed, 200), bound.answer));
        }
        Ok(())
    }

    /// The text of a seed in every way.
    fn seed(&mut self, seed: u64) -> Result<(), String> {
        self.rng = Rng::new(seed);
        let text = seeded::text(&mut self.rng);
        let sizes: &[usize] = if text.len() < 500 { &[1, 2, 5, 30, 200] } else { &[30, 200, 4_096] };
        let ways = [Way::Pipe, Way::File, Way::Pieces(self.rng.pick(sizes))];
        let compared = self.compare(&text, &ways);
        compared.map(drop).map_err(|fault| format!("again with: program 1 {seed}\n{fault}"))
    }
}

/// A program's answer to a text is this one.
fn same(program: &Program, text: &[u8], way: Way, rng: &mut Rng, expected: &[u8]) -> Result<(), String> {
    let printed = program.print(text, way, rng).map_err(|fault| format!("{way:?}: {fault}"))?;
    if printed != expected {
        return Err(difference(text, way, expected, &printed));
    }
    Ok(())
}

/// Says where two answers part, with the beginning of the text.
fn difference(text: &[u8], way: Way, expected: &[u8], printed: &[u8]) -> String {
    let same = expected.iter().zip(printed).take_while(|(one, other)| one == other).count();
    let from = expected[..same].iter().rposition(|byte| *byte == b'\n').map_or(0, |end| end + 1);
    let bytes = text.len();
    let (text, expected, printed) =
        (shown(text, 2_000), shown(&expected[from..], 200), shown(&printed[from..], 200));
    format!(
        "{way:?}, {bytes} bytes\n{text}\nfrom byte {from} on\n  plain:   {expected}\n  program: {printed}"
    )
}

/// The beginning of a text, on one line.
fn shown(text: &[u8], most: usize) -> String {
    let more = if text.len() > most { ".." } else { "" };
    format!("\"{}\"{more}", text[..text.len().min(most)].escape_ascii())
}

fn run(texts: u64, seed: u64) -> Result<(), String> {
    let (router, picture) = (Program::find("router")?, Program::find("picture")?);
    let mut run = Run { router, picture, outcomes: Outcomes::default(), rng: Rng::new(seed) };
    for bound in bounds::all() {
        run.bound(&bound)?;
    }
    for index in 0..texts {
        run.seed(seed.wrapping_add(index))?;
    }
    run.outcomes.print();
    let missing = run.outcomes.missing();
    if texts >= TEXTS && !missing.is_empty() {
        return Err(format!("outcomes not reached: {}", missing.join("; ")));
    }
    Ok(())
}

fn main() -> ExitCode {
    let number = |place, missing| job::argument(place, missing, "program [TEXTS] [SEED]");
    let (texts, seed) = (number(1, TEXTS), number(2, SEED));
    let start = Instant::now();
    println!("the programs at their bounds and on {texts} texts, seed {seed}");
    let result = run(texts, seed);
    println!("{:.1} s", start.elapsed().as_secs_f64());
    if let Err(fault) = result {
        println!("\nFAILED: {fault}");
        return ExitCode::FAILURE;
    }
    println!("ok");
    ExitCode::SUCCESS
}
