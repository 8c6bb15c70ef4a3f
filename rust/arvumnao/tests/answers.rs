//! Jobs that are accepted, and what a caller does with the answer.

use arvumnao::{kind, raw, Aimed, Job, Log, Nets, Refusal, Terms, Timing, UseCounts};
use std::thread;

const JOB_B: &[u8] = include_bytes!("../../../examples/job_b.txt");
const TIMED: &[u8] = include_bytes!("../../../examples/timed.txt");

#[test]
fn job_b() {
    let job = Job::read(JOB_B).unwrap();
    assert_eq!(job.terms, Terms { limit: 2, ..Terms::default() });
    assert_eq!((job.nets.sinks(0), job.nets.sinks(1), job.nets.sinks(2)), (&[4][..], &[5][..], &[][..]));
    assert_eq!(job.nets.sinks(usize::MAX), []);
    let answer = job.route().unwrap();
    assert_eq!((answer.iteration, answer.turns, answer.log.words().len()), (2, 4, 36));
    assert_eq!(answer.log.words()[18..27], [2, 0, 4, 6000, 0, 3, 0, 3, 4]);
    assert_eq!(job.route_in(36).unwrap(), answer);
}

/// A chain of the longest wires between a source and a sink, for this many nets: the log is longer than the first that is tried.
fn chains(nets: u16, length: u16) -> Job {
    let mut job = Job { terms: Terms { limit: 1, ..Terms::default() }, ..Job::default() };
    for net in 0..nets {
        let first = net * (length + 2);
        job.block.add(kind::OUTPUT_PIN, 1, &[first + 1]);
        for node in first + 1..=first + length {
            job.block.add(kind::wire(50), 1, &[node + 1]);
        }
        job.block.add(kind::INPUT_PIN, 1, &[]);
        job.nets.add(first, &[first + length + 1]);
    }
    job
}

#[test]
fn the_log_grows_as_the_job_needs() {
    // a job of one net of 4,096 nodes, and each of its nodes in the path
    let answer = chains(1, 4_094).route().unwrap();
    assert_eq!(answer.log.words().len(), 6 + 4_096);
    assert_eq!(answer.log.records().next().unwrap().cost, 4_094 * 100_000 + 1_900);

    // 128 sinks, each of another source at the end of one wire row: 128 records of up to 1,025 nodes
    let mut job = chains(1, 1_022);
    for net in 1..128 {
        job.block.capacity.fill(255);
        job.block.kind[net] = kind::OUTPUT_PIN;
        job.nets.add(net as u16, &[1_023]);
    }
    let answer = job.route().unwrap();
    assert!(answer.log.words().len() > 4 * 16_384);
    assert_eq!(answer.turns, 128);
    assert_eq!(answer.log.records().count(), 128);
    assert_eq!(job.route_in(answer.log.words().len()).unwrap(), answer);
}

/// Three nets of one source and one of another: the first has all turns, and every other net of its source a J line.
#[test]
fn nets_of_one_source() {
    let mut job = Job { terms: Terms { limit: 1, ..Terms::default() }, ..Job::default() };
    job.block.add(kind::SOURCE, 1, &[2, 3]);
    job.block.add(kind::OUTPUT_PIN, 1, &[4]);
    for _ in 2..5 {
        job.block.add(kind::SINK, 1, &[]);
    }
    job.nets.add(0, &[3]);
    job.nets.add(1, &[4]);
    job.nets.add(0, &[2, 3]);
    job.nets.add(0, &[2]);
    let answer = job.route().unwrap();
    let turns: Vec<_> = answer.log.records().map(|turn| (turn.net, turn.sink)).collect();
    assert_eq!(turns, [(0, 3), (0, 2), (1, 4)]);
    let routes = answer.log.routes(&job.nets).unwrap();
    assert_eq!(routes, "R,1,3\nB,0,0,3\nB,0,0,2\nB,1,1,4\nJ,2,0\nJ,3,0\n");
}

/// Three nets of which two meet: under rule 2 the third keeps its tree, and its branches are those of iteration 1.
#[test]
fn crowded_nets_alone() {
    let job = Job::read(include_bytes!("../../../examples/job_crowded.txt")).unwrap();
    let answer = job.route().unwrap();
    let turns: Vec<_> = answer.log.records().map(|turn| (turn.iteration, turn.net)).collect();
    assert_eq!(turns, [(1, 0), (1, 1), (1, 2), (2, 0), (2, 1)]);
    let branches = "B,0,0,4\nB,0,4,6\nB,1,1,3\nB,1,3,7\nB,2,2,5\nB,2,5,8\n";
    assert_eq!(answer.log.routes(&job.nets).unwrap(), format!("R,2,5\n{branches}"));

    let all = Job { terms: Terms { rule: 1, ..job.terms }, ..job };
    let answer = all.route().unwrap();
    assert_eq!(answer.turns, 6);
    assert_eq!(answer.log.routes(&all.nets).unwrap(), format!("R,2,6\n{branches}"));
}

/// Up to iteration 2 every net is routed again, though rule 2 holds after it.
#[test]
fn crowded_nets_alone_after_iteration_k() {
    let text =
        String::from_utf8_lossy(include_bytes!("../../../examples/job_crowded.txt")).replace("V,2", "V,2,2");
    let job = Job::read(text.as_bytes()).unwrap();
    assert_eq!((job.terms.rule, job.terms.until), (2, 2));
    assert_eq!(job.route().unwrap().turns, 6);
}

/// Job B stopped by a limit of 1, and continued: its own log, as long as needed or not, and one of a longer path for net 0.
#[test]
fn job_b_resumed() {
    let mut job = Job::read(JOB_B).unwrap();
    let straight = job.route().unwrap();
    job.terms.limit = 1;
    let Err(Refusal::Limit { log, .. }) = job.route() else { panic!("one iteration is not enough") };
    job.terms.limit = 2;
    assert_eq!(job.resume(&log).unwrap(), straight);
    assert_eq!(job.resume_in(log.words(), 36).unwrap(), straight);
    let Err(Refusal::LogFull { turns: 3, log: full, .. }) = job.resume_in(&log, 35) else {
        panic!("35 words")
    };
    assert_eq!(full.words(), &straight.log.words()[..27]);
    // a log is never shorter than its own words
    assert_eq!(job.resume_in(&log, 0).unwrap_err().numbers(), [8, 2, 2]);

    // net 0 on wire 3 settles iteration 1, so there is nothing left to route
    let longer = [1, 0, 4, 6000, 0, 3, 0, 3, 4, 1, 1, 5, 4000, 0, 3, 1, 2, 5];
    assert_eq!(job.resume(longer).unwrap_err().numbers(), [14, 18]);
}

/// Job B by the search that aims: each of its turns expands three nodes, whatever stops the run, and lent turns count nothing.
#[test]
fn job_b_aimed() {
    let mut job = Job::read(JOB_B).unwrap();
    let straight = job.route();
    assert_eq!(job.route_aimed(), Aimed { answer: straight.clone(), expanded: 12 });
    assert_eq!(job.route_aimed_in(36), Aimed { answer: straight.clone(), expanded: 12 });
    assert_eq!(job.route_aimed_in(35), Aimed { answer: job.route_in(35), expanded: 9 });
    job.terms.limit = 1;
    let stopped = job.route_aimed();
    assert_eq!(stopped, Aimed { answer: job.route(), expanded: 6 });
    let Err(Refusal::Limit { log, .. }) = stopped.answer else { panic!("one iteration is not enough") };
    job.terms.limit = 2;
    assert_eq!(job.resume_aimed(&log), Aimed { answer: straight, expanded: 6 });
    assert_eq!(job.resume_aimed_in(&log, 27), Aimed { answer: job.resume_in(&log, 27), expanded: 3 });
    let cut = &log.words()[..9];
    assert_eq!(job.resume_aimed(cut), Aimed { answer: job.resume(cut), expanded: 0 });
    job.terms.limit = 0;
    assert_eq!(job.route_aimed(), Aimed { answer: job.route(), expanded: 0 });
}

/// The turns of a log, each as its sink, cost and path.
fn turns(log: &Log) -> Vec<(u32, u64, &[u32])> {
    log.records().map(|turn| (turn.sink, turn.cost, turn.path)).collect()
}

/// The critical sink goes first, by the longer and quicker wire. Costs were worked out by hand.
#[test]
fn a_timed_job() {
    let mut job = Job::read(TIMED).unwrap();
    let log = job.route().unwrap().log;
    assert_eq!(turns(&log), [(4, 17_000, &[0, 2, 4][..]), (3, 40_000, &[0, 1, 3])]);
    // the quick wire's turn doesn't expand the slow one, nor the other way round
    assert_eq!(job.route_aimed(), Aimed { answer: job.route(), expanded: 6 });

    // no delay, no criticality: ten times the prices of the job that isn't timed, sinks as listed
    job.timing = Some(Timing { delay: vec![0; 5], criticality: vec![0; 2] });
    let log = job.route().unwrap().log;
    assert_eq!(turns(&log), [(3, 40_000, &[0, 1, 3][..]), (4, 20_000, &[1, 4])]);
    job.timing = None;
    let log = job.route().unwrap().log;
    assert_eq!(turns(&log), [(3, 4_000, &[0, 1, 3][..]), (4, 2_000, &[1, 4])]);
}

/// A path to the sink that is due passes another, which is joined without a turn.
#[test]
fn a_sink_passed() {
    let mut job = Job { terms: Terms { limit: 40, ..Terms::default() }, ..Job::default() };
    job.block.add(kind::SOURCE, 1, &[1]);
    job.block.add(kind::SINK, 1, &[2]);
    job.block.add(kind::INPUT_PIN, 1, &[]);
    job.nets.add(0, &[1, 2]);
    job.timing = Some(Timing { delay: vec![0, 7, 0], criticality: vec![3, 5] });
    let answer = job.route().unwrap();
    // 5 × 700 + 5 × 2,000, and 5 × 1,900
    assert_eq!(turns(&answer.log), [(2, 23_000, &[0, 1, 2][..])]);
    assert_eq!(answer.log.routes(&job.nets).unwrap(), "R,1,1\nB,0,0,1\nB,0,1,2\n");
}

/// Nets of one source that have a sink in common: the criticality of its first listing counts.
#[test]
fn first_listing_counts() {
    let mut job = Job { terms: Terms { limit: 1, ..Terms::default() }, ..Job::default() };
    job.block.add(kind::SOURCE, 1, &[1, 2]);
    job.block.add(kind::SINK, 1, &[]);
    job.block.add(kind::SINK, 1, &[]);
    job.nets.add(0, &[1]);
    job.nets.add(0, &[2, 1]);
    job.timing = Some(Timing { delay: vec![0; 3], criticality: vec![2, 5, 9] });
    let answer = job.route().unwrap();
    assert_eq!(turns(&answer.log), [(2, 10_000, &[0, 2][..]), (1, 16_000, &[0, 1])]);
}

/// Job B as a timed one, of which net 0's sink is critical and wire 3 slow, stopped by a limit of 1 and continued.
#[test]
fn a_timed_job_resumed() {
    let mut job = Job::read(JOB_B).unwrap();
    job.timing = Some(Timing { delay: vec![0, 0, 0, 3, 0, 0], criticality: vec![5, 0] });
    let straight = job.route().unwrap();
    let costs: Vec<u64> = straight.log.records().map(|turn| turn.cost).collect();
    // in iteration 2 wire 2 would cost net 0 5 × 6,000, wire 3 costs it 5 × 300 + 5 × 4,000
    assert_eq!(costs, [20_000, 40_000, 31_500, 60_000]);
    job.terms.limit = 1;
    let Err(Refusal::Limit { log, .. }) = job.route() else { panic!("one iteration is not enough") };
    job.terms.limit = 2;
    assert_eq!(job.resume(&log).unwrap(), straight);
}

/// The uses of two jobs of one block, in either order: trees 0, 3, 4 and 1, 2, 5, then 0, 2, 4 alone.
#[test]
fn uses_of_two_jobs() {
    let both = Job::read(JOB_B).unwrap();
    let mut one = both.clone();
    one.nets = Nets::default();
    one.nets.add(0, &[4]);
    let logs = [&both, &one].map(|job| job.route().unwrap().log);
    let after = |logs: [&Log; 2]| {
        let mut counts = UseCounts::default();
        logs.into_iter().for_each(|log| counts.add(&both.block, log).unwrap());
        counts
    };
    let counts = after([&logs[0], &logs[1]]);
    assert_eq!(counts, after([&logs[1], &logs[0]]));
    assert_eq!((counts.logs, counts.uses.iter().sum()), (2, 9));
    let text = counts.text(&both.block).unwrap();
    assert!(text.starts_with("U,0,3,4\nU,1,3,4\nU,2,0,0\nU,3,0,0\nU,4,2,2\nU,5,1,2\nU,6,0,0\n"), "{text}");
    assert_eq!(text.lines().count(), 54);
}

/// A cost of more than 32 bits is put together from its two words.
#[test]
fn costs_over_32_bits() {
    let words = [1, 0, 1, 7, 3, 2, 0, 1];
    let mut nets = Nets::default();
    nets.add(0, &[1]);
    let log = Log::from_words(&words, &nets).unwrap();
    assert_eq!(log.records().next().unwrap().cost, 3 << 32 | 7);
}

/// Calls share nothing: they run at once, in threads with little more stack than the library says.
#[test]
fn threads() {
    let expected = Job::read(JOB_B).unwrap().route().unwrap();
    let run = |_| {
        let run = || Job::read(JOB_B).unwrap().route().unwrap();
        thread::Builder::new().stack_size(raw::STACK + 65_536).spawn(run).unwrap()
    };
    let threads: Vec<_> = (0..8).map(run).collect();
    threads.into_iter().for_each(|thread| assert_eq!(thread.join().unwrap(), expected));
}

/// Terms that a slice lacks are plain, and entries past the eighth are not read. Only where that isn't 0 tables 9 and 10 are due.
#[test]
fn terms_as_a_slice() {
    let Job { block, nets, .. } = Job::read(include_bytes!("../../../examples/job_crowded.txt")).unwrap();
    let run = |terms: &[u32]| {
        let (mut work, mut log, mut out) = ([0; 72], [0; 60], [0; raw::OUT]);
        let (block, nets) = (&block, &nets);
        raw::route(
            &block.kind,
            &block.capacity,
            &block.first_edge,
            &block.edge_target,
            &nets.source,
            &nets.first_sink,
            &nets.sink,
            &[],
            &[],
            terms,
            &mut work,
            &mut log,
            &mut out,
        );
        (raw::refusal(&out).to_vec(), *raw::own::<3>(&out))
    };
    assert_eq!(run(&[]), (vec![5, 8], [0; 3]));
    assert_eq!(run(&[9]), (vec![], [2, 6, 54]));
    assert_eq!(run(&[2, 0]), (vec![9, 2, 1], [2, 6, 54]));
    assert_eq!(run(&[9, 50, 3, 2, 1, 2]), (vec![], [2, 5, 45]));
    assert_eq!(run(&[9, 50, 3, 2, 1, 2, 1, 0, 0]), (vec![], [2, 5, 45]));
    assert_eq!(run(&[9, 50, 3, 2, 1, 2, 1, 1]), (vec![5, 9], [0; 3]));
    assert_eq!(run(&[9, 50, 3, 2, 1, 2, 1, u32::MAX]), (vec![5, 9], [0; 3]));
    assert_eq!(run(&[9, 50, 3, 2, 1, 2, 2]), (vec![], [2, 6, 54]));
    assert_eq!(run(&[9, 50, 3, 2, 1, 3]), (vec![5, 8], [0; 3]));
    assert_eq!(run(&[9, 50, 3, 2, 1, 2, 0]), (vec![5, 8], [0; 3]));
}

/// A short `out` gives the returned 0, and nothing is done.
#[test]
fn raw_calls() {
    let mut out = [7; raw::OUT - 1];
    assert_eq!((raw::price(4, 0, 0, 1, 1, &mut out), out), (0, [7; raw::OUT - 1]));
    let mut out = [7; raw::OUT + 1];
    assert_eq!(raw::price(4, 0, 0, 1, 1, &mut out), 1);
    assert_eq!((out[raw::OWN], out[raw::OUT]), (2000, 7));
    // so is a short slice of counts
    let (mut counts, mut out) = ([7; raw::COUNTS - 1], [7; raw::OUT]);
    assert_eq!(raw::uses_add(&[0], &[1], &[0, 0], &[], &mut counts, 1, &[], &mut out), 0);
    assert_eq!(raw::uses_write(&[0], &[1], &[0, 0], &[], &counts, 1, &mut [], &mut out), 0);
    assert_eq!((counts, out), ([7; raw::COUNTS - 1], [7; raw::OUT]));
}

/// A job written by hand after docs/FORMAT.md, with a P line, nets of several sinks, pins and long wires. Its routes and costs
/// were worked out by hand.
#[test]
fn a_job_by_hand() {
    let job = Job::read(include_bytes!("../../../examples/job_tuned.txt")).unwrap();
    let answer = job.route().unwrap();
    let routes = "R,3,15\nB,0,0,5\nB,0,5,6\nB,0,5,7\nB,1,1,4\nB,1,4,9\nB,2,2,3\nB,2,3,8\nB,2,3,7\n";
    assert_eq!(answer.log.routes(&job.nets).unwrap(), routes);
    let costs: Vec<u64> = answer.log.records().map(|turn| turn.cost).collect();
    assert_eq!(costs[..5], [3900, 2000, 102_000, 3900, 2000]);
    assert_eq!(costs[5..10], [9900, 2000, 102_000, 9900, 2000]);
    assert_eq!(costs[10..], [11_900, 2000, 102_000, 7900, 2000]);
}
