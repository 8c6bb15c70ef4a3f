//! What the programs must print, by the plain reader, router and writer.

use plain::{Lent, Writer};

/// What each program prints for one input.
pub struct Printed {
    /// `router`.
    pub routes: Vec<u8>,
    /// `picture`.
    pub picture: Vec<u8>,
}

/// The routes text and the picture, or the line of the refusal: 12, then what the reader, the router and the writer refuse.
pub fn printed(input: &[u8]) -> Printed {
    let mut lent = Lent::program();
    let taken = lent.take(input);
    let mut by = |writer: Writer| {
        let bytes = lent.print(&taken, writer);
        lent.buffer[..bytes].to_vec()
    };
    Printed { routes: by(plain::write), picture: by(plain::dot) }
}

/// Whether a text is accepted with the tree of some net from an iteration before the last.
pub fn keeps_tree(input: &[u8]) -> bool {
    let mut lent = Lent::program();
    let Ok(routed) = lent.take(input) else { return false };
    let mut latest = std::collections::BTreeMap::new();
    let (mut last, mut rest) = (0, &lent.log[..routed.words]);
    while let [iteration, net, _, _, _, nodes, after @ ..] = rest {
        last = *iteration;
        latest.insert(*net, last);
        rest = &after[*nodes as usize..];
    }
    latest.values().any(|iteration| *iteration < last)
}

#[cfg(test)]
mod tests {
    use super::*;

    const JOB_B: &str = include_str!("../../../examples/job_b.txt");
    const JOB_CROWDED: &str = include_str!("../../../examples/job_crowded.txt");

    fn prints(input: &str, output: &str) {
        assert_eq!(String::from_utf8(printed(input.as_bytes()).routes).unwrap(), output);
    }

    fn draws(input: &str, output: &str) {
        assert_eq!(String::from_utf8(printed(input.as_bytes()).picture).unwrap(), output);
    }

    #[test]
    fn samples_of_the_specification() {
        prints(JOB_B, "R,2,4\nB,0,0,3\nB,0,3,4\nB,1,1,2\nB,1,2,5\n");
        draws(
            JOB_B,
            "digraph r {\n0 -> 3 [label=\"0\"];\n3 -> 4 [label=\"0\"];\n1 -> 2 [label=\"1\"];\n2 -> 5 [label=\"1\"];\n}\n",
        );
        prints(&JOB_B.replace("F,6,6,2,2", "F,6,6,2,1"), "X,9,1,1\n");
        draws(&JOB_B.replace("F,6,6,2,2", "F,6,6,2,1"), "X,9,1,1\n");
        prints(&JOB_B.replace("F,6,6,2,2", "F,6,6,2,101"), "X,2,1\n");
        prints(&JOB_B.replace("T,1,5", "T,1,1"), "X,3,17\n");
        prints("", "X,1,1\n");
        // Both nets are crowded in iteration 1, so rule 2 gives the same.
        prints(&JOB_B.replacen('\n', "\nV,2\n", 1), "R,2,4\nB,0,0,3\nB,0,3,4\nB,1,1,2\nB,1,2,5\n");
        prints(&JOB_B.replacen('\n', "\nV,3\n", 1), "X,2,2\n");
        // Net 2 has a wire for itself and keeps its tree: five turns in place of six.
        let routes = "B,0,0,4\nB,0,4,6\nB,1,1,3\nB,1,3,7\nB,2,2,5\nB,2,5,8\n";
        prints(JOB_CROWDED, &format!("R,2,5\n{routes}"));
        prints(&JOB_CROWDED.replace("V,2\n", ""), &format!("R,2,6\n{routes}"));
        // Up to iteration 2 it doesn't.
        prints(&JOB_CROWDED.replace("V,2\n", "V,2,1\n"), &format!("R,2,5\n{routes}"));
        prints(&JOB_CROWDED.replace("V,2\n", "V,2,2\n"), &format!("R,2,6\n{routes}"));
        prints(&JOB_CROWDED.replace("V,2\n", "V,1,2\n"), "X,1,2\n");
        assert!(keeps_tree(JOB_CROWDED.as_bytes()) && !keeps_tree(JOB_B.as_bytes()));
        // Timed, with delay on wire 2: the critical sink of net 0 is joined over wire 3 at once.
        let timed = "F,6,6,2,2\nW\nN,0,0,1,0\nN,1,0,1,0\nN,2,4,1,9\nN,3,5,1,0\nN,4,1,1,0\nN,5,1,1,0\n\
            E,0,2\nE,0,3\nE,1,2\nE,2,4\nE,2,5\nE,3,4\nS,0,0\nT,0,4,9\nS,1,1\nT,1,5,0\n";
        prints(timed, "R,1,2\nB,0,0,3\nB,0,3,4\nB,1,1,2\nB,1,2,5\n");
        prints(&timed.replace("T,0,4,9", "T,0,4,0"), "R,2,4\nB,0,0,3\nB,0,3,4\nB,1,1,2\nB,1,2,5\n");
        prints(&timed.replace("F,6,6,2,2", "F,6,6,2,41"), "X,15,6,41\n");
        // Net 1 becomes one of net 0's source.
        prints(&JOB_B.replace("S,1,1", "S,1,0"), "R,1,2\nB,0,0,2\nB,0,2,4\nB,0,2,5\nJ,1,0\n");
    }
}
