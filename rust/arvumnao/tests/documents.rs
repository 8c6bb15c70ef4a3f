//! The examples in the documents: each block of a job is read and routed, and the blocks after it must be its log, its routes text, the
//! first lines of its uses, or its refusal.

use arvumnao::{Job, Log, Refusal, UseCounts};

/// The fenced blocks of a document: the word after the fence, and the lines.
fn blocks(document: &str) -> Vec<(&str, String)> {
    let mut blocks = Vec::new();
    let mut open: Option<(&str, String)> = None;
    for line in document.lines() {
        match (line.strip_prefix("```"), &mut open) {
            (Some(_), Some(_)) => blocks.extend(open.take()),
            (Some(word), None) => open = Some((word, String::new())),
            (None, Some((_, text))) => *text += &format!("{line}\n"),
            (None, None) => {}
        }
    }
    assert!(open.is_none(), "a block is not closed");
    blocks
}

/// The uses of a log alone, the first `lines` lines; the other kinds have none.
fn uses(job: &Job, log: &Log, lines: usize) -> String {
    let mut counts = UseCounts::default();
    counts.add(&job.block, log).unwrap();
    let text = counts.text(&job.block).unwrap();
    assert!(text.lines().skip(lines).all(|line| line.ends_with(",0,0")));
    text.split_inclusive('\n').take(lines).collect()
}

/// The refusal as the program prints it.
fn x_line(refusal: &Refusal) -> String {
    refusal.numbers().iter().fold(String::from("X"), |line, number| format!("{line},{number}")) + "\n"
}

/// Tests a document's jobs, and counts the blocks that were compared.
fn jobs(document: &str) -> usize {
    let mut answer = None;
    let mut compared = 0;
    for (word, text) in blocks(document) {
        let expected = match (word, &answer) {
            ("job", _) => {
                let run = |job: Job| job.route().map(|answer| (job, answer));
                answer = Some(Job::read(text.as_bytes()).and_then(run));
                continue;
            }
            ("log", Some(Ok((_, answer)))) => answer.log.text(),
            ("routes", Some(Ok((job, answer)))) => answer.log.routes(&job.nets).unwrap(),
            ("uses", Some(Ok((job, answer)))) => uses(job, &answer.log, text.lines().count()),
            ("refused", Some(Err(refusal))) => x_line(refusal),
            ("sentence", Some(Err(refusal))) => format!("{refusal}\n"),
            ("log" | "routes" | "uses" | "refused" | "sentence", _) => {
                panic!("{text}\nis not the answer {answer:?}")
            }
            _ => continue,
        };
        assert_eq!(text, expected);
        compared += 1;
    }
    compared
}

fn document(path: &str) -> String {
    std::fs::read_to_string(format!("{}/../../{path}", env!("CARGO_MANIFEST_DIR"))).unwrap()
}

#[test]
fn format() {
    assert_eq!(jobs(&document("docs/FORMAT.md")), 13);
}

/// The jobs shown are the files named with them.
#[test]
fn jobs_are_the_examples() {
    let shown = [
        ("job_b", "README.md"),
        ("job_b", "docs/FORMAT.md"),
        ("job_crowded", "docs/FORMAT.md"),
        ("timed", "docs/FORMAT.md"),
    ];
    for (job, path) in shown {
        let text = document(&format!("examples/{job}.txt"));
        assert!(blocks(&document(path)).contains(&("job", text)), "{job} in {path}");
    }
}

/// A record prints itself as FORMAT.md shows it, which is what the example in C prints.
#[test]
fn records_are_spelled_alike() {
    let job = Job::read(document("examples/job_b.txt").as_bytes()).unwrap();
    let log = job.route().unwrap().log;
    let records: String = log.records().map(|record| format!("{record}\n")).collect();
    assert!(blocks(&document("docs/FORMAT.md")).contains(&("records", records)));
}
