//! Nets of one source are joined into the first of them.

mod common;
use common::*;
use job::Job;

/// A source 0 and a source 1 with edges to wires 2 and 3 of length 1 and 2, and sinks 4 to 7 behind both.
fn block(nets: &[(u16, &[u16])], limit: u32) -> Job {
    let rows = [&[2, 3][..], &[2, 3], &[4, 5, 6, 7], &[4, 5, 6, 7], &[], &[], &[], &[]].map(<[u16]>::to_vec);
    Job::new(vec![0, 2, 4, 5, 1, 3, 1, 1], vec![1; 8], &rows, nets, limit)
}

/// The log of an accepted job.
fn accepted(t: &Job) -> Vec<u32> {
    let (answer, log) = routed(t, 1_000);
    assert_eq!(answer.refusal, [0; 0]);
    log[..answer.numbers[2] as usize].to_vec()
}

#[test]
fn sinks_come_in_listed_order_each_once() {
    // Sink 6 stands in all three nets of source 0, sink 4 in two; of equally near sinks the first listed is joined.
    let t = block(&[(0, &[6, 4]), (0, &[4, 7, 6]), (0, &[6])], 1);
    let log = accepted(&t);
    let expected = [(1, 0, 4000, vec![0, 2, 6]), (1, 0, 2000, vec![2, 4]), (1, 0, 2000, vec![2, 7])];
    assert_eq!(turns(&log), expected);
    assert_eq!(written(&t.source, &log), text("R,1,3 B,0,0,2 B,0,2,6 B,0,2,4 B,0,2,7 J,1,0 J,2,0"));
}

#[test]
fn joined_nets_are_one_user() {
    // Source 0 and the wires have capacity 1; net 1, of another source, takes the second wire.
    let t = block(&[(0, &[4]), (1, &[5]), (0, &[6])], 100);
    let log = accepted(&t);
    let last = log.len() - 26;
    assert_eq!(log[last], 2);
    assert_eq!(turns(&log[last..]).iter().map(|turn| turn.1).collect::<Vec<_>>(), [0, 0, 1]);
    let routes = written(&t.source, &log);
    assert!(routes.ends_with("J,2,0\n") && routes.matches('J').count() == 1, "{routes}");
}

#[test]
fn the_same_as_one_net_with_all_sinks() {
    let split = block(&[(1, &[5]), (0, &[6]), (1, &[7, 5]), (0, &[4, 6])], 9);
    let whole = block(&[(1, &[5, 7]), (0, &[6, 4])], 9);
    assert_eq!(routed(&split, 300), routed(&whole, 300));
    let log = accepted(&split);
    let routes = written(&whole.source, &log);
    assert_eq!(written(&split.source, &log), routes + "J,2,0\nJ,3,1\n");
}

#[test]
fn unreachable_by_the_first_number_and_the_joined_place() {
    // No edge leads to node 8, a sink.
    let lonely = |nets: &[(u16, &[u16])]| {
        let mut t = block(nets, 1);
        t.kind.push(1);
        t.capacity.push(1);
        t.add_row(&[]);
        let (answer, log) = routed(&t, 100);
        assert_eq!((answer.numbers, log), (vec![0; 3], vec![MARK; 100]));
        answer.refusal
    };
    // The second net's second sink is the joined net's third, for its first is a repeat.
    assert_eq!(lonely(&[(0, &[4, 5]), (0, &[5, 8])]), [7, 0, 2]);
    // Net 2, joined into net 0, comes before net 1.
    assert_eq!(lonely(&[(0, &[4]), (1, &[8]), (0, &[8])]), [7, 0, 1]);
    assert_eq!(lonely(&[(0, &[4]), (1, &[5]), (1, &[5, 6, 8])]), [7, 1, 2]);
}

#[test]
fn a_net_keeps_its_own_rules() {
    // A sink twice within a net is still refused, across nets it is not.
    let refusal = |nets: &[(u16, &[u16])]| route_with(&block(nets, 1), &mut [], &mut []).refusal;
    assert_eq!(refusal(&[(0, &[4]), (0, &[5, 5])]), [5, 7]);
    assert_eq!(refusal(&[(0, &[4]), (0, &[4])]), [6, 64]);
}

#[test]
fn the_log_is_as_long_as_the_joined_net() {
    let t = block(&[(0, &[4]), (0, &[4])], 1);
    assert_eq!(routed(&t, 9).0.numbers, [1, 1, 9]);
    let (answer, _) = routed(&block(&[(0, &[4]), (0, &[5])], 1), 16);
    assert_eq!((answer.refusal, answer.numbers), (vec![8, 1, 1], vec![1, 1, 9]));
}

const RECORD: [u32; 8] = [3, 1, 9, 0, 0, 2, 4, 9];

#[test]
fn the_writer_refuses_table_5_first() {
    for bad in [&[][..], &[0; 513], &[0, 4096], &[0, 1, u16::MAX]] {
        for log in [&[][..], &RECORD] {
            assert_eq!(unwritten(bad, log), [5, 5]);
        }
    }
    assert_eq!(unwritten(&[4095, 0], &[]), [10, 0]);
    assert_eq!(written(&[4095, 0], &RECORD), "R,3,1\nB,1,4,9\n");
}

#[test]
fn a_record_names_the_first_net_of_a_source() {
    // Beyond table 5, and joined into another.
    assert_eq!(unwritten(&[7], &RECORD), [10, 0]);
    assert_eq!(unwritten(&[7, 7], &RECORD), [10, 0]);
    assert_eq!(written(&[6, 7, 7], &RECORD), "R,3,1\nB,1,4,9\nJ,2,1\n");
    let mut two = [RECORD, RECORD].concat();
    two[9] = 2;
    assert_eq!(unwritten(&[6, 7, 7], &two), [10, 8]);
    assert_eq!(unwritten(&[6, 7], &two), [10, 8]);
    two[9] = 512;
    assert_eq!(unwritten(&(0..512).collect::<Vec<u16>>(), &two), [10, 8]);
}

#[test]
fn every_later_net_has_a_line() {
    // Net 0 has no record, and nets 2 and 4 are joined into it all the same.
    let source = [5, 6, 5, 6, 5];
    assert_eq!(written(&source, &RECORD), text("R,3,1 B,1,4,9 J,2,0 J,3,1 J,4,0"));
    let mut all = written(&[8; 512], &[3, 0, 9, 0, 0, 2, 4, 9]);
    assert_eq!(all.matches("\nJ,").count(), 511);
    assert!(all.ends_with("J,510,0\nJ,511,0\n"));
    all.truncate(20);
    assert_eq!(all, "R,3,1\nB,0,4,9\nJ,1,0\n"[..20]);
}
