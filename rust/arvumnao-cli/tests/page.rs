//! The page of a report, in a browser: it loads without an error and shows the numbers.

mod common;

use common::{limited, Folder, CROWDED, JOB_B};
use std::path::Path;
use std::process::Command;

/// What the page holds once the browser has loaded it, and what the browser says meanwhile; none where there is no browser.
fn loaded(page: &Path) -> Option<(String, String)> {
    // each run of the browser has a folder of its own
    let data = Folder::new(&format!("{}_browser", page.parent()?.file_name()?.to_string_lossy()));
    let mut chromium = Command::new("chromium");
    chromium.args([
        "--headless",
        "--no-sandbox",
        "--disable-gpu",
        "--disable-dev-shm-usage",
        "--enable-logging=stderr",
    ]);
    chromium.arg(format!("--user-data-dir={}", data.0.display())).arg("--dump-dom");
    let output = chromium.arg(format!("file://{}", page.display())).output().ok()?;
    assert!(output.status.success());
    Some((String::from_utf8(output.stdout).unwrap(), String::from_utf8_lossy(&output.stderr).into_owned()))
}

/// The page as it is written: nothing is fetched and nothing runs.
fn alone(page: &str) {
    for word in ["<script", "src=", "href=", "url(", "@import"] {
        assert!(!page.contains(word), "{word}");
    }
}

fn shows(folder: &Folder, words: &str, status: i32, numbers: &[&str]) {
    assert_eq!(folder.words(words).status, status);
    let page = folder.read("page.html");
    alone(&page);
    let numbered =
        |page: &str| numbers.iter().for_each(|number| assert!(page.contains(number), "{number} in {page}"));
    numbered(&page);
    let Some((held, said)) = loaded(&folder.0.join("page.html")) else {
        println!("left out: no browser is installed (Debian's package chromium)");
        return;
    };
    numbered(&held);
    let console: Vec<&str> = said.lines().filter(|line| line.contains("CONSOLE")).collect();
    assert!(console.is_empty(), "{console:?}");
}

#[test]
fn a_settled_job() {
    let folder = Folder::new("page");
    folder.write("b <&>.txt", JOB_B);
    let ended = folder.run(&["report", "b <&>.txt", "--html", "page.html"]);
    ended.printed("");
    let page = folder.read("page.html");
    assert!(page.contains("<title>b &lt;&amp;&gt;.txt</title>"), "{page}");
    folder.write("b.txt", JOB_B);
    let numbers = [
        "settled in iteration 2, after 4 turns",
        "<title>iteration 1: 1 node overfull</title>",
        "<title>node 2, wire of length 1: 1/1, history 2</title>",
        "<td>133.3</td>",
        "<td class=\"word\">wire of length 2</td>",
    ];
    shows(&folder, "report b.txt --html page.html", 0, &numbers);
}

#[test]
fn an_unsettled_job_with_places() {
    let folder = Folder::new("placed");
    folder.write("limited.txt", limited());
    folder.write("places", "0,0,0\n1,0,1\n2,3,0\n3,3,0\n4,9,0\n");
    let numbers = [
        "not settled by iteration 1, the limit, after 2 turns: 1 node overfull",
        "5 of 6 nodes, as they are placed",
        "<title>node 2, wire of length 1: 2/1, history 1</title>",
        "fill=\"#d62828\"",
    ];
    shows(&folder, "report limited.txt --html page.html --places places", 3, &numbers);
    assert_eq!(folder.read("page.html").matches("<rect").count(), 5);
}

#[test]
fn a_page_goes_to_standard_output_too() {
    let folder = Folder::new("page_out");
    folder.write("crowded.txt", CROWDED);
    let ended = folder.words("report crowded.txt --html -");
    assert_eq!((ended.status, ended.told.as_str()), (0, ""));
    assert!(ended.out.starts_with("<!DOCTYPE html>") && ended.out.ends_with("</html>\n"));
}
