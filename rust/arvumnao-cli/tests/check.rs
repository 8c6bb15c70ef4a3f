//! `check`: the verdict, as compilers give it.

mod common;

use common::{limited, unreachable, Folder, JOB_B, TIMED};

#[test]
fn sound_jobs_get_a_line_each() {
    let folder = Folder::new("sound");
    folder.write("b.txt", JOB_B);
    folder.write("timed.txt", TIMED);
    folder.words("check b.txt timed.txt").told(
        0,
        "b.txt: R,2,4: settles in iteration 2, after 4 turns\n\
         timed.txt: R,1,2: settles in iteration 1, after 2 turns\n",
    );
    folder.words("check -q b.txt").printed("");
    folder.fed("check -", JOB_B).told(0, "<stdin>: R,2,4: settles in iteration 2, after 4 turns\n");
    assert_eq!(folder.names(), ["b.txt", "timed.txt"]);
}

/// The line, a caret under what is wrong, and the sentence.
#[test]
fn a_faulty_line_is_shown_with_a_caret() {
    let folder = Folder::new("faulty");
    let cases = [
        (JOB_B.replacen("N,2,4,1", "N,2,4, 1", 1), "4: X,1,4: a blank in capacity, where only digits may stand\n  4 | N,2,4, 1\n    |       ^\n"),
        (JOB_B.replacen("N,2,4,1", "N,2,54,1", 1), "4: X,2,4: kind 54 is beyond 0 to 53\n  4 | N,2,54,1\n    |     ^\n"),
        (JOB_B.replacen("E,0,3", "E,0,2", 1), "9: X,3,9: the edge of the line before again\n  9 | E,0,2\n    |"),
        (JOB_B.replace('\n', "\r\n"), "1: X,1,1: a carriage return after limit: lines end in LF alone\n  1 | F,6,6,2,2\\r\n    |          ^\n"),
        (String::new(), "1: X,1,1: the text ends where the F line should come\n"),
        (JOB_B[..JOB_B.len() - 1].to_string(), "17: X,1,17: the last line is not ended by LF\n  17 | T,1,5\n     |      ^\n"),
    ];
    for (text, told) in cases {
        folder.write("bad.txt", text);
        let ended = folder.words("check bad.txt");
        assert_eq!((ended.status, ended.out.as_str()), (1, ""));
        assert!(ended.told.starts_with(&format!("bad.txt:{told}")), "{}\nis not\nbad.txt:{told}", ended.told);
    }
}

/// Bytes that don't print are escaped, and of a long line the part about the caret is shown; nothing panics.
#[test]
fn any_bytes_get_a_sentence() {
    let folder = Folder::new("bytes");
    let long = format!("F,6,6,2,{}x\n", "1".repeat(100_000));
    let texts: [&[u8]; 6] =
        [b"\0\xff\x1b[31m\n", &[0xef, 0xbb, 0xbf, b'F'], b"\n", b"F", b"\xff", long.as_bytes()];
    for text in texts {
        folder.write("bad.txt", text);
        let ended = folder.words("check bad.txt");
        assert_eq!((ended.status, ended.out.as_str()), (1, ""));
        assert!(ended.told.starts_with("bad.txt:1: X,1,1: "), "{}", ended.told);
        assert!(ended.told.len() < 500 && !ended.told.contains('\x1b'), "{}", ended.told);
    }
    // a text without an end is read as far as a job text may go
    let ended = folder.words("check /dev/zero");
    assert!(ended.told.starts_with("/dev/zero:1: X,1,1: "), "{}", ended.told);
}

/// Refusal 9: which nodes, whose, and what to try.
#[test]
fn overfull_nodes_are_named() {
    let folder = Folder::new("overfull");
    folder.write("b.txt", limited());
    let ended = folder.words("check b.txt");
    assert_eq!((ended.status, ended.out.as_str()), (3, ""));
    let lines: Vec<&str> = ended.told.lines().collect();
    assert_eq!(lines[0], "b.txt: X,9,1,1: not settled by iteration 1, the limit: 1 node over capacity");
    assert_eq!(lines[1], "  node  kind              use/capacity  history  nets");
    assert_eq!(lines[2], "     2  wire of length 1           2/1        1  0 1");
    assert!(lines[3].starts_with("  to try: a higher limit (arvumnao route --limit N); "), "{}", lines[3]);
    assert_eq!(lines.len(), 4);
    // at the highest limit there is no higher one
    folder.write(
        "b.txt",
        limited()
            .replacen("F,6,6,2,1\n", "F,6,6,2,100\nP,0,1,1,1\n", 1)
            .replacen("E,0,3\n", "", 1)
            .replacen("F,6,6", "F,6,5", 1),
    );
    let ended = folder.words("check b.txt");
    assert!(ended.told.starts_with("b.txt: X,9,100,1: "), "{}", ended.told);
    assert!(
        !ended.told.contains("raise the limit") && !ended.told.contains("a higher limit"),
        "{}",
        ended.told
    );
}

/// Two nets with one sink of capacity 1: no limit helps.
#[test]
fn a_sink_of_too_many_nets_is_told() {
    let folder = Folder::new("hopeless");
    folder.write("b.txt", JOB_B.replacen("T,1,5", "T,1,4", 1));
    let ended = folder.words("check b.txt");
    assert_eq!(ended.status, 3);
    let line = "  sinks of more nets than they have room for, which no limit or tariff helps: 4\n";
    assert!(ended.told.contains(line), "{}", ended.told);
}

/// Refusal 7: the T line, and what can be reached.
#[test]
fn what_can_be_reached_is_told() {
    let folder = Folder::new("reach");
    folder.write("b.txt", unreachable());
    let ended = folder.words("check b.txt");
    assert_eq!((ended.status, ended.out.as_str()), (3, ""));
    let lines: Vec<&str> = ended.told.lines().collect();
    assert!(lines[0].starts_with("b.txt:13: X,7,0,0: T,0,4: no path leads "), "{}", lines[0]);
    assert_eq!(lines[1], "  nodes that can be reached from node 0: none");
    assert_eq!(lines[2], "  nodes from which sink 4 can be reached: 1 2 3");
    assert_eq!(lines.len(), 3);
}

/// Of several jobs the highest status counts, and each is told of.
#[test]
fn statuses() {
    let folder = Folder::new("statuses");
    folder.write("b.txt", JOB_B);
    folder.write("bad.txt", "F\n");
    folder.write("limited.txt", limited());
    folder.write("large.txt", TIMED.replacen("F,5,5,1,10", "F,5,5,1,41", 1));
    assert_eq!(folder.words("check b.txt bad.txt").status, 1);
    assert_eq!(folder.words("check bad.txt none.txt b.txt").status, 2);
    assert_eq!(folder.words("check limited.txt none.txt bad.txt").status, 3);
    let ended = folder.words("check large.txt");
    assert_eq!(ended.status, 1);
    assert!(ended.told.starts_with("large.txt: X,15,5,41: "), "{}", ended.told);
}
