//! The calls stand in Rattle, where they are proved, and here: both must say the same. Numbers stand in C's header and here.

use arvumnao::raw;

fn file(path: &str) -> String {
    std::fs::read_to_string(format!("{}/../../{path}", env!("CARGO_MANIFEST_DIR"))).unwrap()
}

/// The text without what stands between these marks.
fn without(text: &str, begin: &str, end: &str) -> String {
    let mut parts = text.split(begin);
    let first = parts.next().unwrap_or_default();
    parts.fold(String::from(first), |rest, part| rest + part.split_once(end).map_or("", |(_, after)| after))
}

/// Each call that follows a word: its name and parameters.
fn calls(text: &str, before: &str) -> Vec<(String, Vec<String>)> {
    let begin = format!("{before}arvumnao_");
    let call = |part: &str| {
        let (name, rest) = part.split_once('(').unwrap();
        let parameters = rest.split_once(')').unwrap().0.split(',');
        let parameters = parameters.map(|one| one.split_whitespace().collect::<Vec<_>>().join(" "));
        (String::from(name), parameters.filter(|one| !one.is_empty()).collect())
    };
    text.split(&begin).skip(1).map(call).collect()
}

/// The header without its comments.
fn header() -> String {
    without(&file("include/arvumnao.h"), "/*", "*/")
}

#[test]
fn calls_agree() {
    let rattle = calls(&file("crates/capi/src/lib.rt"), "pub extern \"C\" fn ");
    let rust = calls(&file("rust/arvumnao/src/raw.rs"), " = ");
    assert!(!rattle.is_empty());
    assert_eq!(rust, rattle);
}

/// The number that the header defines.
fn defined(name: &str) -> usize {
    let header = header();
    let begin = format!("#define {name} ");
    let line = header.lines().find_map(|line| line.strip_prefix(&begin));
    line.and_then(|line| line.trim().parse().ok())
        .unwrap_or_else(|| panic!("{name} is no number in the header"))
}

#[test]
fn numbers_agree() {
    assert_eq!(defined("ARVUMNAO_OUT"), raw::OUT);
    assert_eq!(defined("ARVUMNAO_REFUSAL_2") + 1, raw::OWN);
    assert_eq!(defined("ARVUMNAO_STACK"), raw::STACK);
    assert_eq!(defined("ARVUMNAO_COUNTS"), raw::COUNTS);
    assert_eq!(defined("ARVUMNAO_USES_BYTES"), raw::USES_BYTES);
    assert_eq!(defined("ARVUMNAO_NODES_MOST"), arvumnao::NODES);
    assert_eq!(defined("ARVUMNAO_EDGES_MOST"), arvumnao::EDGES);
    assert_eq!(defined("ARVUMNAO_NETS_MOST"), arvumnao::NETS);
    assert_eq!(defined("ARVUMNAO_SINKS_MOST"), arvumnao::SINKS);
    assert_eq!(defined("ARVUMNAO_LIMIT_MOST"), arvumnao::LIMIT as usize);
    assert_eq!(defined("ARVUMNAO_TIMED_NODES_MOST"), arvumnao::TIMED_NODES);
    assert_eq!(defined("ARVUMNAO_TIMED_LIMIT_MOST"), arvumnao::TIMED_LIMIT as usize);
    assert_eq!(defined("ARVUMNAO_KIND_MOST"), arvumnao::kind::MOST.into());
    assert_eq!(defined("ARVUMNAO_SOURCE"), arvumnao::kind::SOURCE.into());
    assert_eq!(defined("ARVUMNAO_SINK"), arvumnao::kind::SINK.into());
    assert_eq!(defined("ARVUMNAO_OUTPUT_PIN"), arvumnao::kind::OUTPUT_PIN.into());
    assert_eq!(defined("ARVUMNAO_INPUT_PIN"), arvumnao::kind::INPUT_PIN.into());
    let numbers = ["MAJOR", "MINOR", "PATCH"].map(|part| defined(&format!("ARVUMNAO_VERSION_{part}")) as u32);
    assert_eq!(numbers, arvumnao::VERSION);
    let version = format!("#define ARVUMNAO_VERSION \"{}\"", env!("CARGO_PKG_VERSION"));
    assert!(header().contains(&version));
}
