//! A job and a log as texts, and what is refused of a log text.

use arvumnao::{Job, Log, Nets, Refusal, Terms};

const JOB_B: &str = include_str!("../../../examples/job_b.txt");

/// Every example is written as it is read.
#[test]
fn the_examples() {
    let folder = format!("{}/../../examples", env!("CARGO_MANIFEST_DIR"));
    let mut texts = 0;
    for entry in std::fs::read_dir(folder).unwrap() {
        let path = entry.unwrap().path();
        if path.extension().is_some_and(|extension| extension == "txt") {
            let text = std::fs::read_to_string(&path).unwrap();
            assert_eq!(Job::read(text.as_bytes()).unwrap().text().unwrap(), text, "{}", path.display());
            texts += 1;
        }
    }
    assert!(texts >= 7, "{texts}");
}

/// Lines that say what holds without them are left out.
#[test]
fn lines_left_out() {
    let head = |terms: Terms| {
        let job = Job { terms: Terms { limit: 2, ..terms }, ..Job::read(JOB_B.as_bytes()).unwrap() };
        let text = job.text().unwrap();
        let lines: Vec<&str> = text.lines().skip(1).take_while(|line| !line.starts_with('N')).collect();
        (lines.join(" "), Job::read(text.as_bytes()).unwrap().terms == job.terms)
    };
    let plain = Terms::default();
    assert_eq!(head(plain), (String::new(), true));
    assert_eq!(head(Terms { first: 0, ..plain }), (String::from("P,0,3,2,1"), true));
    assert_eq!(head(Terms { step: 2, rule: 2, ..plain }), (String::from("P,50,3,2,2 V,2"), true));
    assert_eq!(head(Terms { rule: 2, until: 7, ..plain }), (String::from("V,2,7"), true));
    // under rule 1 the second number is ignored, and a text can't have it
    assert_eq!(head(Terms { until: 7, ..plain }), (String::new(), false));
}

fn nets() -> Nets {
    Job::read(JOB_B.as_bytes()).unwrap().nets
}

fn refused(text: &str, column: Option<usize>, sentence: &str) {
    let refusal = Log::read(text.as_bytes(), &nets()).unwrap_err();
    assert_eq!((refusal.to_string(), refusal.numbers()), (String::from(sentence), vec![]));
    let Refusal::LogLine(fault) = refusal else { panic!("{sentence}") };
    assert_eq!(fault.column, column, "{sentence}");
}

#[test]
fn shapes_of_a_log_text() {
    refused("", None, "line 1: the text ends where the first record should come");
    refused("\n", Some(0), "line 1: iteration has no digits: \"\"");
    refused("1,0,4\n", Some(5), "line 1: has 3 numbers, where a record has 6: \"1,0,4\"");
    refused(
        "1,0,4,4000,0,4,0,2,4\n",
        Some(20),
        "line 1: has 9 numbers, where a record has 6 and a path of 4 nodes: \"1,0,4,4000,0,4,0,2,4\"",
    );
    refused(
        "1,0,4,4000,0,3,0,2,4\n1,1,5,4000,0,3,1,2 ,5\n",
        Some(18),
        "line 2: a blank in node, where only digits may stand: \"1,1,5,4000,0,3,1,2 ,5\"",
    );
    refused(
        "1,0,4,4000,0,3,0,2,4\r\n",
        Some(20),
        "line 1: a carriage return after node: lines end in LF alone: \"1,0,4,4000,0,3,0,2,4\\r\"",
    );
    refused(
        "1,0,4,4294967296,0,3,0,2,4\n",
        Some(6),
        "line 1: cost's low word is beyond 0 to 4294967295: \"1,0,4,4294967296,0,3,0,2,4\"",
    );
    refused(
        "1,0,4,04,0,2,0,4\n",
        Some(6),
        "line 1: cost's low word has a leading zero: \"1,0,4,04,0,2,0,4\"",
    );
    refused("1,0,4,7,0,2,0,4", Some(15), "line 1: the last line is not ended by LF: \"1,0,4,7,0,2,0,4\"");
}

/// The library says which record is unsound, and the sentence why.
#[test]
fn unsound_records() {
    let sound = "1,0,4,4000,0,3,0,2,4\n";
    let second = |line: &str, reason: &str| {
        refused(&format!("{sound}{line}\n"), Some(0), &format!("line 2: {reason}: \"{line}\""));
    };
    second("0,0,4,0,0,2,0,4", "iteration 0 is beyond 1 to 100");
    second("101,0,4,0,0,2,0,4", "iteration 101 is beyond 1 to 100");
    second("2,2,4,0,0,2,0,4", "net 2 is none of the job's 2");
    second("2,0,4,0,0,1,4", "its path has fewer than 2 nodes");
    second("2,0,4,0,0,2,0,5", "its path doesn't end at sink 4");
    second("2,0,4,0,0,3,0,4096,4", "node 4096 is beyond 0 to 4095");
    refused(
        "2,0,4,4000,0,3,0,2,4\n1,0,4,4000,0,3,0,2,4\n",
        Some(0),
        "line 2: iteration 1 comes after iteration 2: \"1,0,4,4000,0,3,0,2,4\"",
    );
    // net 1 has net 0's source
    let mut nets = nets();
    nets.source[1] = 0;
    let refusal = Log::read(b"1,1,5,0,0,2,0,5\n", &nets).unwrap_err();
    assert_eq!(
        refusal.to_string(),
        "line 1: net 1 is routed as net 0, the first of its source: \"1,1,5,0,0,2,0,5\""
    );
    nets.source.clear();
    assert_eq!(Log::read(sound.as_bytes(), &nets).unwrap_err().numbers(), [5, 5]);
}

/// A cost of more than 32 bits is two words of the line.
#[test]
fn large_costs() {
    let text = "1,0,4,7,3,2,0,4\n";
    let log = Log::read(text.as_bytes(), &nets()).unwrap();
    assert_eq!(log.records().next().unwrap().cost, 3 << 32 | 7);
    assert_eq!(log.text(), text);
}
