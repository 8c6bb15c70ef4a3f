//! Logs gone through again: prices, histories and users worked out by hand, and records that can't be what a turn leaves.

use arvumnao::{kind, Iteration, Job, Log, Overfull, Refusal, Step, Terms, Timing};

fn read(name: &str) -> Job {
    let path = format!("{}/../../examples/{name}.txt", env!("CARGO_MANIFEST_DIR"));
    Job::read(&std::fs::read(path).unwrap()).unwrap()
}

fn replayed<'l>(log: &'l Log, job: &'l Job) -> Vec<Iteration<'l>> {
    log.replay(job).unwrap().collect::<Result<_, _>>().unwrap()
}

#[test]
fn job_b() {
    let job = read("job_b");
    let log = job.route().unwrap().log;
    let iterations = replayed(&log, &job);
    let [one, two] = &iterations[..] else { panic!("two iterations") };
    assert_eq!((one.number, one.factor, two.number, two.factor), (1, 0, 2, 50));
    assert_eq!((&one.history[..], &two.history[..]), (&[1; 6][..], &[1, 1, 2, 1, 1, 1][..]));
    assert_eq!((&one.users[..], &two.users[..]), (&[1, 1, 2, 0, 1, 1][..], &[1; 6][..]));
    assert_eq!(one.overfull, [Overfull { node: 2, capacity: 1, nets: vec![0, 1] }]);
    assert_eq!(two.overfull, []);
    // sources, sinks and wire 2 cost 20 each, wire 3 costs 40
    assert_eq!((one.tree_cost, two.tree_cost), (6 * 20, 5 * 20 + 40));
    // sharing wire 2 is free in iteration 1, though it is seen
    let wire = |history, excess, price| Step { node: 2, history, base: 20, excess, delay: 0, price };
    assert_eq!(one.turns[0].steps[0], wire(1, 0, 2000));
    assert_eq!(one.turns[1].steps[0], wire(1, 1, 2000));
    // in iteration 2 net 0 has left it when net 1's turn comes
    assert_eq!(two.turns[1].steps[0], wire(2, 0, 4000));
    assert_eq!(two.turns[1].criticality, None);
}

/// With `P,0,2,1,2` the factor stays 0, and a history grows by 2 for each net too many.
#[test]
fn tuned() {
    let text = "F,7,9,2,10\nP,0,2,1,2\nN,0,2,1\nN,1,0,1\nN,2,4,1\nN,3,6,2\nN,4,3,1\nN,5,1,1\nN,6,3,1\nE,0,2\nE,0,3\nE,1,2\nE,1,3\n\
                E,2,4\nE,2,5\nE,2,6\nE,3,4\nE,3,6\nS,0,0\nT,0,6\nT,0,4\nS,1,1\nT,1,5\n";
    let job = Job::read(text.as_bytes()).unwrap();
    let log = job.route().unwrap().log;
    let histories: Vec<_> = replayed(&log, &job).iter().map(|it| (it.factor, it.history[2])).collect();
    assert_eq!(histories, [(0, 1), (0, 3), (0, 5)]);
    assert_eq!(job.text().unwrap(), text);
}

/// The factor grows by 3 / 2, rounded down, to at most 65,535; so 01 has it in iterations 4, 19, 20 and 21.
#[test]
fn factors() {
    let mut job = read("job_b");
    job.block.edge_target = vec![2, 2, 4, 5];
    job.block.first_edge = vec![0, 1, 2, 4, 4, 4, 4];
    job.terms.limit = 21;
    let Err(Refusal::Limit { log, .. }) = job.route() else { panic!("wire 2 has room for one") };
    let iterations = replayed(&log, &job);
    let factors = [4, 19, 20, 21].map(|iteration| iterations[iteration - 1].factor);
    assert_eq!(factors, [112, 48_997, 65_535, 65_535]);
    assert_eq!(iterations[20].history[2], 21);
}

/// Under rule 2 the third net keeps its tree of iteration 1, and is still among the users.
#[test]
fn kept_trees() {
    let job = read("job_crowded");
    let log = job.route().unwrap().log;
    let iterations = replayed(&log, &job);
    assert_eq!(iterations[1].turns.len(), 2);
    assert_eq!(iterations[1].users, [1; 9]);
    let trees = log.trees(&job).unwrap();
    let latest: Vec<_> = trees.iter().map(|tree| (tree.net, tree.iteration)).collect();
    assert_eq!(latest, [(0, 2), (1, 2), (2, 1)]);
    assert_eq!(trees[2].branches, [(2, 5), (5, 8)]);
    assert_eq!(trees[2].nodes().collect::<Vec<_>>(), [2, 5, 8]);
    assert_eq!((trees[0].cost(&job), trees[2].cost(&job)), (80, 60));
}

#[test]
fn timed() {
    let job = read("timed");
    let log = job.route().unwrap().log;
    let iterations = replayed(&log, &job);
    let turn = &iterations[0].turns[0];
    assert_eq!((turn.record.sink, turn.criticality), (4, Some(9)));
    let step = Step { node: 2, history: 1, base: 60, excess: 0, delay: 10, price: 9 * 1000 + 6000 };
    assert_eq!(turn.steps, [step, Step { node: 4, base: 20, delay: 0, price: 2000, ..step }]);
    let trees = log.trees(&job).unwrap();
    assert_eq!((trees[0].path(3), trees[0].path(0)), (Some(vec![0, 1, 3]), Some(vec![0])));
    assert_eq!((trees[0].delay(&job, 3), trees[0].delay(&job, 0)), (Some(60), Some(0)));
    // a node that the tree or the job doesn't have, and a job that isn't timed
    assert_eq!((trees[0].path(7), trees[0].delay(&job, 7)), (None, None));
    assert_eq!(trees[0].delay(&Job { timing: None, ..job.clone() }, 3), None);
}

/// Of nets of one source the first has all turns, with the criticality of a sink's first listing.
#[test]
fn joined() {
    let mut job = Job { terms: Terms { limit: 1, ..Terms::default() }, ..Job::default() };
    job.block.add(kind::SOURCE, 1, &[1, 2]);
    job.block.add(kind::SINK, 1, &[]);
    job.block.add(kind::SINK, 1, &[]);
    job.nets.add(0, &[1]);
    job.nets.add(0, &[2, 1]);
    job.timing = Some(Timing { delay: vec![0; 3], criticality: vec![2, 5, 9] });
    let log = job.route().unwrap().log;
    let iterations = replayed(&log, &job);
    let turns: Vec<_> = iterations[0].turns.iter().map(|turn| (turn.record.sink, turn.criticality)).collect();
    assert_eq!(turns, [(2, Some(5)), (1, Some(2))]);
    assert_eq!(log.trees(&job).unwrap().len(), 1);
}

/// A log whose last iteration was cut by a log that was full.
#[test]
fn a_cut_iteration() {
    let job = read("job_b");
    let Err(Refusal::LogFull { log, .. }) = job.route_in(27) else { panic!("27 words") };
    let iterations = replayed(&log, &job);
    // net 1 has its tree of iteration 1 still, over wire 2
    assert_eq!((iterations[1].turns.len(), &iterations[1].users[..]), (1, &[1; 6][..]));
}

/// Job B's log up to the record that has the word at a place, which is changed, and the sentence in which it is refused.
fn refused(place: usize, word: u32, sentence: &str) {
    let job = read("job_b");
    let mut words = job.route().unwrap().log.words().to_vec();
    words[place] = word;
    // each record has nine words
    words.truncate((place / 9 + 1) * 9);
    let log = Log::from_words(&words, &job.nets).unwrap();
    let mut replay = log.replay(&job).unwrap();
    let refusal = replay.find_map(|iteration| iteration.err()).unwrap();
    assert_eq!((refusal.to_string(), refusal.numbers()), (String::from(sentence), vec![]));
    assert!(replay.next().is_none(), "nothing comes after the fault");
}

#[test]
fn logs_that_are_none() {
    refused(3, 4001, "the log's record at word 0: its path costs 4000, and the log has 4001");
    refused(22, 1, "the log's record at word 18: its path costs 6000, and the log has 4294973296");
    refused(18, 3, "the log's record at word 18: iteration 3 comes after iteration 1");
    refused(0, 2, "the log's record at word 0: iteration 2 comes after iteration 0");
    refused(6, 1, "the log's record at word 0: its path begins at node 1, which the net's tree doesn't have");
    refused(7, 5, "the log's record at word 0: no switch leads from node 0 to node 5");
    refused(7, 0, "the log's record at word 0: its path comes to node 0, which the net's tree has already");
    refused(7, 6, "the log's record at word 0: 6 is not a node of 6");
    refused(10, 0, "the log's record at word 9: node 5 is no sink to which net 0 is routed");
}

/// A path that passes a node twice is no path, nor is one to a sink that the tree has.
#[test]
fn nodes_twice() {
    let text = "F,4,4,1,1\nN,0,0,1\nN,1,4,1\nN,2,4,1\nN,3,1,1\nE,0,1\nE,1,2\nE,1,3\nE,2,1\nS,0,0\nT,0,3\n";
    let job = Job::read(text.as_bytes()).unwrap();
    let twice = [1, 0, 3, 8000, 0, 5, 0, 1, 2, 1, 3];
    let log = Log::from_words(&twice, &job.nets).unwrap();
    let refusal = log.trees(&job).unwrap_err();
    assert_eq!(refusal.to_string(), "the log's record at word 0: its path passes node 1 twice");
    let again = [1, 0, 3, 4000, 0, 3, 0, 1, 3, 1, 0, 3, 2000, 0, 2, 1, 3];
    let log = Log::from_words(&again, &job.nets).unwrap();
    let refusal = log.overfull(&job).unwrap_err();
    assert_eq!(
        refusal.to_string(),
        "the log's record at word 9: its path comes to node 3, which the net's tree has already"
    );
}

/// A job whose tables break a rule, and a timed job that is too large.
#[test]
fn jobs_that_are_none() {
    let job = read("job_b");
    let log = job.route().unwrap().log;
    let mut other = job.clone();
    other.block.capacity.clear();
    assert_eq!(log.replay(&other).unwrap_err().numbers(), [5, 2]);
    assert_eq!(log.trees(&other).unwrap_err().numbers(), [5, 2]);
    assert_eq!(other.text().unwrap_err().numbers(), [5, 2]);
    let mut other = job.clone();
    other.timing = Some(Timing { delay: vec![0; 6], criticality: vec![0; 2] });
    other.terms.limit = 41;
    assert_eq!(log.overfull(&other).unwrap_err().numbers(), [15, 6, 41]);
    assert_eq!(other.check().unwrap_err().numbers(), [15, 6, 41]);
    assert_eq!(job.check(), Ok(()));
}
