//! Texts at the programs' bounds and just past them, each with what the answer to it begins with.

use job::{jobs, texts, Job, Rng};
use plain::sizes::{BYTES, EDGES, NETS, NODES, SINKS, WORDS};

/// A text at a bound.
pub struct Bound {
    pub name: &'static str,
    pub text: Vec<u8>,
    /// Whether the answer is that of `picture`, or of `router`.
    pub picture: bool,
    pub answer: &'static str,
}

fn bound(name: &'static str, text: Vec<u8>, answer: &'static str) -> Bound {
    Bound { name, text, picture: false, answer }
}

/// All of them, for tables first, then timed jobs, input, log, routes and picture.
pub fn all() -> Vec<Bound> {
    let mut list = tables();
    list.extend(timed());
    list.extend(input());
    list.extend(log());
    list.extend(routes());
    list.extend(pictures());
    list
}

/// Each table full and one entry past its end, as far as no rule refuses the entry before.
fn tables() -> Vec<Bound> {
    vec![
        bound("1,024 nodes", texts::text(&jobs::line(NODES)), "R,1,1\nB,0,0,1\n"),
        bound("1,025 nodes", texts::text(&jobs::line(NODES + 1)), "X,4,1\n"),
        bound("8,192 edges", texts::text(&by_last_edge(EDGES)), "R,1,1\nB,0,90,1\n"),
        bound("8,193 edges", texts::text(&by_last_edge(EDGES + 1)), "X,4,4\n"),
        bound("512 nets", texts::text(&nets(NETS, NETS)), "R,1,512\n"),
        bound(
            "512 nets of one source",
            texts::text(&of_one_source(nets(NETS, SINKS))),
            "R,1,10\nB,0,0,512\n",
        ),
        bound("513 nets", texts::text(&nets(NETS + 1, NETS + 1)), "X,2,1\n"),
        bound("4,096 sinks", texts::text(&last_unreached(nets(NETS, SINKS))), "X,7,511,7\n"),
        bound("4,097 sinks", texts::text(&nets(NETS, SINKS + 1)), "X,3,5679\n"),
    ]
}

/// Timed jobs: their nodes, limit, delays and criticalities, and as many sinks as table 10 has entries.
fn timed() -> Vec<Bound> {
    let line = |nodes: usize, limit: u32, delay: u16, criticality: u8| {
        texts::text(&Job { limit, ..jobs::line(nodes).timed(&vec![delay; nodes], &[criticality]) })
    };
    let many = jobs::many_sinks(&mut Rng::new(1), SINKS);
    let nodes = many.kind.len();
    vec![
        bound("1,024 timed nodes", line(NODES, 40, 1_000, 9), "R,1,1\nB,0,0,1\n"),
        bound("1,025 timed nodes", line(NODES + 1, 40, 1_000, 9), "X,4,1\n"),
        bound("a timed limit of 41", line(NODES, 41, 1_000, 9), "X,15,1024,41\n"),
        bound("a timed limit of 100", line(2, 100, 0, 0), "X,15,2,100\n"),
        bound("a delay of 1,001", line(NODES, 40, 1_001, 9), "X,2,3\n"),
        bound("a criticality of 10", line(2, 40, 1_000, 10), "X,2,7\n"),
        bound("4,096 timed sinks", texts::text(&many.timed(&vec![7; nodes], &[5; SINKS])), "R,1,"),
    ]
}

/// No byte, as many as the program takes, and more.
fn input() -> Vec<Bound> {
    let full = texts::text(&of_bytes(BYTES));
    let mut followed = full.clone();
    followed.push(b'\n');
    let mut shorter = full.clone();
    shorter.pop();
    vec![
        bound("no input", Vec::new(), "X,1,1\n"),
        bound("65,535 bytes, the last LF left out", shorter, "X,1,"),
        bound("65,536 bytes", full, "R,1,1\nB,"),
        bound("65,536 bytes and one more", followed, "X,12,65536\n"),
        bound("65,537 bytes", texts::text(&of_bytes(BYTES + 1)), "X,12,65536\n"),
        bound("300,000 bytes", vec![b'7'; 300_000], "X,12,65536\n"),
    ]
}

/// Records that fill the log, and a last one that is a word or a record too long.
fn log() -> Vec<Bound> {
    let sinks = (WORDS - NETS) / 8;
    vec![
        bound("16,384 words", texts::text(&nets(NETS, sinks)), "R,1,1984\n"),
        bound("16,385 words", texts::text(&by_wire(nets(NETS, sinks))), "X,8,1,1983\n"),
        bound("16,392 words", texts::text(&nets(NETS, sinks + 1)), "X,8,1,1984\n"),
        bound("4,096 sinks with a path", texts::text(&nets(NETS, SINKS)), "X,8,1,2016\n"),
    ]
}

/// Routes that fill the buffer, and some of one byte more.
fn routes() -> Vec<Bound> {
    vec![
        bound("routes of 65,536 bytes", texts::text(&lines_of("R,1,8\n", "B,7,,\n", BYTES)), "R,1,8\n"),
        bound(
            "routes of 65,537 bytes",
            texts::text(&lines_of("R,1,8\n", "B,7,,\n", BYTES + 1)),
            "X,11,65537\n",
        ),
    ]
}

/// A picture that fills the buffer, and one of one byte more.
fn pictures() -> Vec<Bound> {
    let text = |bytes| texts::text(&lines_of("digraph r {\n}\n", " ->  [label=\"7\"];\n", bytes));
    let bounds = [
        bound("a picture of 65,536 bytes", text(BYTES), "digraph r {\n"),
        bound("a picture of 65,537 bytes", text(BYTES + 1), "X,11,65537\n"),
    ];
    bounds.into_iter().map(|bound| Bound { picture: true, ..bound }).collect()
}

/// A graph of so many edges, of which the 8,192nd leads from node 90, the source, straight to the sink.
fn by_last_edge(edges: usize) -> Job {
    let mut job = jobs::full(92, edges);
    job.source[0] = 90;
    (job.kind[0], job.kind[90]) = (4, 0);
    job
}

/// The nodes of `nets`: a source for each net with an edge to one of three hubs, an edge from each hub to each of ten sinks, and a sink
/// and a wire without edges.
const HUBS: usize = 512;
const REACHED: usize = 515;
const LONELY: usize = 525;
const WIRE: usize = 526;

/// So many nets with so many sinks in all. A net's first record has 9 words, the others 8.
fn nets(nets: usize, sinks: usize) -> Job {
    let mut kind = vec![0; WIRE + 1];
    kind[HUBS..REACHED].fill(4);
    kind[REACHED..=LONELY].fill(1);
    kind[WIRE] = 4;
    let mut job = Job::bare(kind, vec![255; WIRE + 1], 1);
    let reached: Vec<u16> = (REACHED as u16..LONELY as u16).collect();
    for node in 0..=WIRE {
        match node {
            0..HUBS => job.add_row(&[hub(node) as u16]),
            HUBS..REACHED => job.add_row(&reached),
            _ => job.add_row(&[]),
        }
    }
    for net in 0..nets {
        let count = sinks / nets + usize::from(net < sinks % nets);
        let list: Vec<u16> = (net..net + count).map(|step| reached[step % reached.len()]).collect();
        job.add_net(net as u16, &list);
    }
    job
}

/// The hub of a net.
fn hub(net: usize) -> usize {
    HUBS + net % (REACHED - HUBS)
}

/// Every net begins at the first one's source, so that all are joined.
fn of_one_source(mut job: Job) -> Job {
    job.source.fill(0);
    job
}

/// The last sink becomes one that no edge leads to.
fn last_unreached(mut job: Job) -> Job {
    *job.sink.last_mut().expect("a job has a sink") = LONELY as u16;
    job
}

/// The last sink becomes one that is a wire further away, so that the last record has a word more.
fn by_wire(job: Job) -> Job {
    let mut job = last_unreached(job);
    let mut rows: Vec<Vec<u16>> = (0..=WIRE).map(|node| job.row(node).to_vec()).collect();
    rows[hub(NETS - 1)].push(WIRE as u16);
    rows[WIRE].push(LONELY as u16);
    (job.first_edge, job.edge_target) = (vec![0], Vec::new());
    rows.iter().for_each(|row| job.add_row(row));
    job
}

/// A text of so many bytes, of which edges among nodes of three digits take most, 10 bytes each.
fn of_bytes(bytes: usize) -> Job {
    let room = bytes - texts::text(&ladder(1_000)).len();
    let mut job = ladder(1_000 + room / 10);
    job.capacity[..room % 10].fill(10);
    assert_eq!(texts::text(&job).len(), bytes);
    job
}

/// From node 0 on each node has edges to the six after it, so many in all. A net goes from node 0 to node 700.
fn ladder(edges: usize) -> Job {
    let mut kind = vec![4; NODES];
    (kind[0], kind[700]) = (0, 1);
    let mut job = Job::bare(kind, vec![1; NODES], 1);
    for node in 0..NODES {
        let left = edges - job.edge_target.len();
        let row: Vec<u16> = (1..=6).map(|step| (node + step) as u16).take(left).collect();
        job.add_row(&row);
    }
    job.add_net(0, &[700]);
    job
}

/// The line of `along`: its first wire comes after eight sources.
const START: usize = 8;
const END: usize = 1_007;

/// Nets whose text has so many bytes, with this frame and, but for the nodes, these lines: as many as can go to the line's end, and
/// three that share the rest.
fn lines_of(frame: &str, line: &str, bytes: usize) -> Job {
    let digits = |node: usize| node.to_string().len();
    // the bytes of a net's lines up to each node of the line
    let mut bytes_to = vec![0; START];
    bytes_to.push(line.len() + 2);
    for node in START..END {
        bytes_to.push(bytes_to[node] + line.len() + digits(node) + digits(node + 1));
    }
    let whole = (bytes - frame.len()) / bytes_to[END];
    let rest = bytes - frame.len() - whole * bytes_to[END];
    let third = |one: usize, other: usize| {
        let left = rest.checked_sub(bytes_to[one] + bytes_to[other])?;
        bytes_to.binary_search(&left).ok()
    };
    let pairs = (START..200).flat_map(|one| (one..200).map(move |other| (one, other)));
    let mut shares = pairs.filter_map(|(one, other)| Some([one, other, third(one, other)?]));
    let share = shares.next().expect("three nets can share the rest");
    along(std::iter::repeat_n(END, whole).chain(share))
}

/// A line of a thousand nodes, and nets from sources before its start to nodes on it.
fn along(ends: impl Iterator<Item = usize>) -> Job {
    let mut kind = vec![4; END + 1];
    kind[..START].fill(2);
    let mut job = Job::bare(kind, vec![255; END + 1], 1);
    (0..START).for_each(|_| job.add_row(&[START as u16]));
    (START..END).for_each(|node| job.add_row(&[node as u16 + 1]));
    job.add_row(&[]);
    for (net, end) in ends.enumerate() {
        job.kind[end] = 3;
        job.add_net(net as u16, &[end as u16]);
    }
    job
}
