//! Job texts, sound and changed, from a seed.

use crate::{jobs, Job, Rng, Tuning, PLAIN_RULE, PLAIN_UNTIL};

/// A line's letter and numbers.
#[derive(Clone)]
struct Line {
    letter: u8,
    fields: Vec<u64>,
}

/// What a job's text says though it need not: the P line of the plain tuning, the V line of rule 1, the second number of `V,2,1`.
#[derive(Clone, Copy, Default)]
struct Said {
    tuning: bool,
    rule: bool,
    until: bool,
}

/// The lines of a job's text. Under rule 1 it has no place for the second number, and an untimed one none for delay and criticality.
fn lines(job: &Job, said: Said) -> Vec<Line> {
    let (nodes, nets) = (job.kind.len(), job.source.len());
    let mut list = Vec::new();
    let mut add = |letter, fields: &[usize]| {
        list.push(Line { letter, fields: fields.iter().map(|field| *field as u64).collect() });
    };
    add(b'F', &[nodes, job.edge_target.len(), nets, job.limit as usize]);
    if said.tuning || job.tuning != Tuning::PLAIN {
        add(b'P', &job.tuning.numbers().map(|number| number as usize));
    }
    let fields = [job.rule as usize, job.until as usize];
    if job.rule != PLAIN_RULE {
        add(b'V', if said.until || job.until != PLAIN_UNTIL { &fields } else { &fields[..1] });
    } else if said.rule {
        add(b'V', &fields[..1]);
    }
    if job.is_timed() {
        add(b'W', &[]);
    }
    // How many numbers a line has that has one more in a timed job.
    let count = |fields: usize| fields + usize::from(job.is_timed());
    let further = |table: &[usize], place: usize| if job.is_timed() { table[place] } else { 0 };
    let delay: Vec<usize> = job.delay.iter().map(|delay| *delay as usize).collect();
    let criticality: Vec<usize> = job.criticality.iter().map(|criticality| *criticality as usize).collect();
    for node in 0..nodes {
        let fields = [node, job.kind[node] as usize, job.capacity[node] as usize, further(&delay, node)];
        add(b'N', &fields[..count(3)]);
    }
    for node in 0..nodes {
        for to in job.row(node) {
            add(b'E', &[node, *to as usize]);
        }
    }
    for net in 0..nets {
        add(b'S', &[net, job.source[net] as usize]);
        for place in job.first_sink[net] as usize..job.first_sink[net + 1] as usize {
            let fields = [net, job.sink[place] as usize, further(&criticality, place)];
            add(b'T', &fields[..count(2)]);
        }
    }
    list
}

/// Prints lines, each ended by LF.
fn print(list: &[Line]) -> Vec<u8> {
    let mut text = Vec::new();
    for line in list {
        text.push(line.letter);
        for field in &line.fields {
            text.push(b',');
            text.extend(field.to_string().bytes());
        }
        text.push(b'\n');
    }
    text
}

/// The text of a job with sound tables, with P and V lines only where they are needed.
pub fn text(job: &Job) -> Vec<u8> {
    print(&lines(job, Said::default()))
}

/// The same, at times with more than is needed.
pub fn some_text(rng: &mut Rng, job: &Job) -> Vec<u8> {
    print(&some_lines(rng, job))
}

fn some_lines(rng: &mut Rng, job: &Job) -> Vec<Line> {
    lines(job, Said { tuning: rng.once_in(4), rule: rng.once_in(3), until: rng.once_in(3) })
}

/// A job's text with wrong content, wrong bytes or both.
pub fn changed(rng: &mut Rng, job: &Job) -> Vec<u8> {
    let mut list = some_lines(rng, job);
    if rng.once_in(5) {
        change_term(rng, &mut list);
        return print(&list);
    }
    if rng.once_in(if job.is_timed() { 4 } else { 40 }) {
        change_timing(rng, &mut list);
        if rng.percent(80) {
            return print(&list);
        }
    }
    if rng.once_in(8) {
        change_pin(rng, &mut list);
        if rng.percent(70) {
            return print(&list);
        }
    }
    let way = rng.below(100);
    if way < 60 {
        for _ in 0..rng.pick(&[1, 1, 1, 2, 3]) {
            change_lines(rng, &mut list);
        }
    }
    let mut text = print(&list);
    if rng.once_in(30) {
        leading_early(rng, &mut text);
    } else if way >= 50 {
        for _ in 0..rng.pick(&[1, 1, 1, 2, 4]) {
            change_bytes(rng, &mut text);
        }
    }
    text
}

/// Texts that hardly hold a job at all.
pub fn odd(rng: &mut Rng) -> Vec<u8> {
    let choices: [&[u8]; 34] = [
        b"",
        b"\n",
        b"F",
        b"F\n",
        b"F,1,0,1,1\n",
        b"F,1,0,1,1",
        b"\r\n",
        b"F,4097,0,1,1\n",
        b"F,1,32769,1,1\n",
        b"F,1,0,513,1\n",
        b"F,1,0,1,101\n",
        b"F,0,0,0,0\n",
        b"F,1,0,1,1\nP",
        b"F,1,0,1,1\nP\n",
        b"F,1,0,1,1\nP,50,3,2,1",
        b"F,1,0,1,1\nP,50,3,2,1\n",
        b"P,50,3,2,1\n",
        b"F,1,0,1,1\nP,1001,3,2,1",
        b"F,1,0,1,1\nV",
        b"F,1,0,1,1\nV,3",
        b"F,1,0,1,1\nV,2",
        b"F,1,0,1,1\nV,2\n",
        b"F,1,0,1,1\nP,50,3,2,1\nV,3\n",
        b"V,2\n",
        b"F,1,0,1,1\nV,2,",
        b"F,1,0,1,1\nV,2,1",
        b"F,1,0,1,1\nV,1,100\n",
        b"F,1,0,1,1\nV,2,2,2\n",
        b"F,1,0,1,1\nW",
        b"F,1,0,1,1\nW\n",
        b"F,1,0,1,1\nW,\n",
        b"F,1,0,1,41\nW\n",
        b"F,1025,0,1,1\nV,2\nW\n",
        b"W\n",
    ];
    rng.pick(&choices).to_vec()
}

/// One wrong number, field, letter or line.
fn change_lines(rng: &mut Rng, list: &mut Vec<Line>) {
    if list.is_empty() {
        return;
    }
    let place = some_line(rng, list);
    match rng.below(16) {
        0..=5 => change_field(rng, &mut list[place]),
        6 => copy_field(rng, list, place),
        7 => list[place].letter = rng.pick(b"FPVWNESTRBXfn ,\n0"),
        8 => drop(list[place].fields.pop()),
        9 => {
            let field = rng.below(9) as u64;
            list[place].fields.push(field);
        }
        10 => drop(list.remove(place)),
        11 => {
            let copy = list[place].clone();
            list.insert(place, copy);
        }
        12 => {
            let copy = list[place].clone();
            list.insert(rng.below(list.len() + 1), copy);
        }
        13 => {
            let other = rng.below(list.len());
            list.swap(place, other);
        }
        14 if place > 0 => list.swap(place - 1, place),
        14 => change_field(rng, &mut list[place]),
        _ => list.push(extra(rng)),
    }
}

/// A P, V or W line of another shape, with a bad value, twice or elsewhere. There is one afterwards even if there was none.
fn change_term(rng: &mut Rng, list: &mut Vec<Line>) {
    let letter = rng.pick(b"PVW");
    let at = term_place(rng, list, letter);
    match rng.below(if letter == b'W' { 8 } else { 14 }) {
        0 => list.insert(at, list[at].clone()),
        1 => list.swap(at - 1, at),
        2 => list.swap(at, at + 1),
        3 => {
            let line = list.remove(at);
            list.insert(rng.below(list.len() + 1), line);
        }
        4 => list.insert(rng.within(at + 1, list.len()), list[at].clone()),
        5 => list[at].fields.push(rng.below(4) as u64),
        6 if letter == b'W' => drop(list.remove(at)),
        6 => {
            let kept = rng.below(list[at].fields.len());
            list[at].fields.truncate(kept);
        }
        7 => list[at].letter = rng.pick(b"pvwNFPVWR"),
        8 => change_field(rng, &mut list[at]),
        9 if letter == b'P' => {
            let down = rng.within(1, 4) as u64;
            (list[at].fields[1], list[at].fields[2]) = (down - rng.below(2) as u64, down);
        }
        _ if letter == b'P' => {
            let (field, bad) = rng.pick(&[(0, 1_001), (1, 9), (1, 0), (2, 0), (2, 5), (3, 0), (3, 3)]);
            list[at].fields[field] = bad;
        }
        9 | 10 => list[at].fields[0] = rng.pick(&[0, 3, 3, 4, 12, 22, 256, 258, 65_538, 999_999]),
        11 => list[at].fields = vec![rng.pick(&[1, 1, 0, 3]), rng.pick(&[0, 1, 2, 99, 100])],
        _ => list[at].fields = vec![2, rng.pick(&[0, 1, 98, 99, 100, 101, 256, 257, 65_537, 999_999])],
    }
}

/// The place of a sound text's P, V or W line, which is put there if it is missing.
fn term_place(rng: &mut Rng, list: &mut Vec<Line>, letter: u8) -> usize {
    let before = b"PVW".split(|term| *term == letter).next().unwrap_or(&[]);
    let at = (1..list.len()).find(|place| !before.contains(&list[*place].letter)).unwrap_or(1);
    if list[at].letter != letter {
        let fields = match letter {
            b'W' => vec![],
            b'P' => jobs::tuning(rng).numbers().to_vec(),
            _ if rng.once_in(3) => vec![2, jobs::until(rng)],
            _ => vec![jobs::rule(rng)],
        };
        list.insert(at, Line { letter, fields: fields.into_iter().map(u64::from).collect() });
    }
    at
}

/// A delay or a criticality that is missing, too many, beyond its bounds or at them: in one line, at times beside a number of another line
/// like it, or in all of a letter. In an untimed text every one is too many.
fn change_timing(rng: &mut Rng, list: &mut [Line]) {
    let (letter, count, bounds) =
        rng.pick(&[(b'N', 3, [0, 999, 1_000, 1_001, 1_002]), (b'T', 2, [0, 8, 9, 10, 11])]);
    let value = match rng.below(4) {
        0 => rng.pick(&[255, 256, 265, 65_535, 65_536, 66_536, 999_999]),
        _ => rng.pick(&bounds),
    };
    let places: Vec<usize> = (0..list.len()).filter(|place| list[*place].letter == letter).collect();
    let one = rng.pick(&places);
    let (all, way) = (rng.once_in(6), rng.below(6));
    if rng.once_in(3) {
        let (field, other) = (rng.below(2), rng.pick(&places));
        list[one].fields[field] = list[other].fields[field];
    }
    for place in places.into_iter().filter(|place| all || *place == one) {
        let fields = &mut list[place].fields;
        match way {
            0 => fields.truncate(count),
            1 => fields.push(value),
            _ => {
                fields.truncate(count);
                fields.push(value);
            }
        }
    }
}

/// A source or sink of any kind: its N line gets the kind, or its own line another node.
fn change_pin(rng: &mut Rng, list: &mut [Line]) {
    let letter = rng.pick(b"ST");
    let nodes = list[0].fields[0];
    let places: Vec<usize> = (0..list.len()).filter(|place| list[*place].letter == letter).collect();
    let pin = rng.pick(&places);
    if rng.percent(30) {
        list[pin].fields[1] = rng.below(nodes as usize) as u64;
        return;
    }
    let node = list[pin].fields[1];
    let kind = rng.pick(&[0, 1, 2, 3, 4, 5, 15, 53]);
    for line in list.iter_mut().filter(|line| line.letter == b'N' && line.fields[0] == node) {
        line.fields[1] = kind;
    }
}

/// The letter of a text's line (from 1), if it is an S or T line, with the kind that its node has by the N lines.
pub fn pin(text: &[u8], line: u64) -> Option<(u8, u8)> {
    let lines: Vec<&[u8]> = text.split(|byte| *byte == b'\n').collect();
    let fields: Vec<&[u8]> = lines.get(line as usize - 1)?.split(|byte| *byte == b',').collect();
    let ([b"S"] | [b"T"]) = fields[..1] else { return None };
    let node = [b"N," as &[u8], fields.get(2)?, b","].concat();
    let kind =
        lines.iter().find_map(|line| line.strip_prefix(&node[..]))?.split(|byte| *byte == b',').next()?;
    Some((fields[0][0], std::str::from_utf8(kind).ok()?.parse().ok()?))
}

/// Some line, with each letter about as often.
fn some_line(rng: &mut Rng, list: &[Line]) -> usize {
    let letter = rng.pick(b"FPVWNEST");
    let same: Vec<usize> = (0..list.len()).filter(|place| list[*place].letter == letter).collect();
    if same.is_empty() {
        rng.below(list.len())
    } else {
        rng.pick(&same)
    }
}

/// A number near the one there, or near a bound.
fn change_field(rng: &mut Rng, line: &mut Line) {
    if line.fields.is_empty() {
        return;
    }
    let place = rng.below(line.fields.len());
    let old = line.fields[place];
    line.fields[place] = match rng.below(3) {
        0 => old + 1,
        1 => old.saturating_sub(1),
        _ => rng.pick(&[
            0,
            1,
            2,
            5,
            53,
            54,
            10,
            40,
            41,
            100,
            101,
            255,
            256,
            511,
            512,
            513,
            1_024,
            1_025,
            4_095,
            4_096,
            4_097,
            32_767,
            32_768,
            32_769,
            65_535,
            3,
            4,
            8,
            9,
            1_000,
            1_001,
            65_536,
            65_537,
            99_999,
            100_000,
            999_999,
            1_000_000,
            4_294_967_296,
            18_446_744_073_709_551_615,
        ]),
    };
}

/// A number of a line like it, or of its own line.
fn copy_field(rng: &mut Rng, list: &mut [Line], place: usize) {
    let from = rng.below(list.len());
    if list[from].fields.is_empty() || list[place].fields.is_empty() {
        return;
    }
    let value = list[from].fields[rng.below(list[from].fields.len())];
    let field = rng.below(list[place].fields.len());
    list[place].fields[field] = value;
}

/// A line after the end.
fn extra(rng: &mut Rng) -> Line {
    let letter = rng.pick(b"FPVWNESTT");
    let fields = (0..rng.within(usize::from(letter != b'W'), 4)).map(|_| rng.below(8) as u64).collect();
    Line { letter, fields }
}

/// One wrong byte, cut or swap.
fn change_bytes(rng: &mut Rng, text: &mut Vec<u8>) {
    if text.is_empty() {
        text.push(b'F');
        return;
    }
    let place = rng.below(text.len());
    match rng.below(14) {
        0..=2 => text[place] = byte(rng),
        3 | 4 => text.insert(place, byte(rng)),
        5 | 6 => drop(text.remove(place)),
        7 => text.swap(place, place.saturating_sub(1)),
        8 => text.truncate(place),
        9 => drop(text.pop()),
        10 => carriage_return(rng, text),
        11 => leading(rng, text, b"0"),
        12 => {
            let digits: &[u8] =
                rng.pick(&[b"10000" as &[u8], b"000000", b"00000", b"1000000", b"99999999999999999999"]);
            leading(rng, text, digits);
        }
        _ => {
            let end: &[u8] = rng.pick(&[b"\n" as &[u8], b" ", b"\0", b"T", b"\r\n", b"#"]);
            text.extend_from_slice(end);
        }
    }
}

/// A byte, mostly one that job texts have.
fn byte(rng: &mut Rng) -> u8 {
    if rng.percent(85) {
        rng.pick(b"0123456789,,\n\n\rFPVWNEST -+.\"")
    } else {
        rng.draw() as u8
    }
}

/// CR before or in place of an LF.
fn carriage_return(rng: &mut Rng, text: &mut Vec<u8>) {
    let ends: Vec<usize> = (0..text.len()).filter(|place| text[*place] == b'\n').collect();
    if ends.is_empty() {
        return;
    }
    let place = rng.pick(&ends);
    if rng.percent(50) {
        text.insert(place, b'\r');
    } else {
        text[place] = b'\r';
    }
}

/// Digits before a number.
fn leading(rng: &mut Rng, text: &mut Vec<u8>, digits: &[u8]) {
    leading_within(rng, text, digits, 0, text.len());
}

/// The same among the bytes from one place up to another.
fn leading_within(rng: &mut Rng, text: &mut Vec<u8>, digits: &[u8], from: usize, end: usize) {
    let commas: Vec<usize> = (from..end).filter(|place| text[*place] == b',').collect();
    if commas.is_empty() {
        return;
    }
    let place = rng.pick(&commas) + 1;
    text.splice(place..place, digits.iter().copied());
}

/// A zero before a number of the second or third line, which may be a P or a V line.
fn leading_early(rng: &mut Rng, text: &mut Vec<u8>) {
    let ends: Vec<usize> = (0..text.len()).filter(|place| text[*place] == b'\n').take(3).collect();
    if let [first, second, third] = ends[..] {
        let (from, end) = rng.pick(&[(first, second), (second, third)]);
        leading_within(rng, text, b"0", from, end);
    }
}

#[cfg(test)]
mod tests {
    use super::*;

    #[test]
    fn a_timed_text_has_further_numbers() {
        let job = Job::new(vec![0, 1, 1], vec![1; 3], &[vec![1, 2], vec![], vec![]], &[(0, [2, 1])], 3);
        let untimed = "F,3,2,1,3\nN,0,0,1\nN,1,1,1\nN,2,1,1\nE,0,1\nE,0,2\nS,0,0\nT,0,2\nT,0,1\n";
        assert_eq!(text(&job), untimed.as_bytes());
        // Tables 9 and 10 of an untimed job are no part of its text.
        assert_eq!(text(&Job { delay: vec![1; 9], criticality: vec![1], ..job.clone() }), untimed.as_bytes());
        let timed = Job { rule: 2, ..job.timed(&[0, 7, 1_000], &[9, 0]) };
        let lines =
            "F,3,2,1,3\nV,2\nW\nN,0,0,1,0\nN,1,1,1,7\nN,2,1,1,1000\nE,0,1\nE,0,2\nS,0,0\nT,0,2,9\nT,0,1,0\n";
        assert_eq!(text(&timed), lines.as_bytes());
    }
}
