//! The C header declares what the library offers: each function of `capi` by its name, its parameters by name and type, in order. A C
//! compiler doesn't look at the names, but whoever calls by the header does.

const HEADER: &str = include_str!("../../../include/arvumnao.h");
const CALLS: &str = include_str!("../calls.c");

/// The source of `capi`.
fn source() -> String {
    let folder = concat!(env!("CARGO_MANIFEST_DIR"), "/../../crates/capi/src");
    let files = std::fs::read_dir(folder).unwrap().map(|file| file.unwrap().path());
    files.map(|file| std::fs::read_to_string(file).unwrap()).collect()
}

/// The text with every run of blanks and line ends as one blank, and a list's last comma gone.
fn on_one_line(text: &str) -> String {
    text.split_whitespace().collect::<Vec<_>>().join(" ").replace(", )", ")").replace("( ", "(")
}

/// The header without comments and preprocessor lines.
fn bare_header() -> String {
    let pieces = HEADER.split("/*").enumerate();
    let code: String = pieces
        .map(|(place, piece)| if place == 0 { piece } else { piece.split_once("*/").unwrap().1 })
        .collect();
    code.lines().filter(|line| !line.starts_with('#')).collect::<Vec<_>>().join("\n")
}

/// The header's prototypes.
fn declared() -> Vec<String> {
    let text = on_one_line(&bare_header());
    let statements = text.split(';').filter(|statement| statement.contains("arvumnao_"));
    let mut list: Vec<String> =
        statements.map(|statement| statement.rsplit(['{', '}']).next().unwrap().trim().to_string()).collect();
    list.sort();
    list
}

/// The prototypes of the functions that `capi` offers to C.
fn offered() -> Vec<String> {
    let text = on_one_line(&source());
    let functions = text.split("pub extern \"C\" fn ").skip(1);
    let mut list: Vec<String> =
        functions.map(|function| prototype(function.split_once(") -> u32").unwrap().0)).collect();
    list.sort();
    list
}

/// A function's name and parameters in C.
fn prototype(function: &str) -> String {
    let (name, parameters) = function.split_once('(').unwrap();
    let parameters: Vec<String> = parameters.split(", ").map(parameter).collect();
    format!("uint32_t {name}({})", parameters.join(", "))
}

/// A parameter in C: a slice is a pointer and a count.
fn parameter(text: &str) -> String {
    let (name, kind) = text.split_once(": ").unwrap();
    let c = |number: &str| format!("uint{}_t", number.trim_start_matches('u').trim_end_matches(']'));
    if let Some(number) = kind.strip_prefix("&mut [") {
        format!("{} *{name}, size_t {name}_count", c(number))
    } else if let Some(number) = kind.strip_prefix("&[") {
        format!("const {} *{name}, size_t {name}_count", c(number))
    } else {
        format!("{} {name}", c(kind))
    }
}

#[test]
fn the_header_declares_what_capi_offers() {
    let offered = offered();
    assert!(!offered.is_empty());
    assert_eq!(declared(), offered);
}

#[test]
fn each_is_called_from_c() {
    for prototype in declared() {
        let name = prototype.split(['(', ' ']).nth(1).unwrap();
        assert!(
            CALLS.contains(&format!("EXPECT({name}(")) || CALLS.contains(&format!("return {name}(")),
            "{name}"
        );
    }
}
