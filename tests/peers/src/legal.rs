//! Whether an answer is legal, by the job alone, and what its wires cost. The same test for every router.

use job::{cost, Job};

/// The switches that each net uses, as from and to.
pub type Branches = Vec<Vec<(u16, u16)>>;

/// The nodes of a net's tree, source first. Its branches must be switches of the block, and lead from the source to each of their ends once.
fn tree(job: &Job, net: usize, branches: &[(u16, u16)]) -> Result<Vec<u16>, String> {
    if let Some((from, to)) = branches.iter().find(|(from, to)| !job.row(*from as usize).contains(to)) {
        return Err(format!("net {net} uses a switch from {from} to {to}, which the block lacks"));
    }
    let mut nodes = vec![job.source[net]];
    let mut place = 0;
    while place < nodes.len() && nodes.len() <= branches.len() + 1 {
        let ends = branches.iter().filter(|branch| branch.0 == nodes[place]).map(|branch| branch.1);
        nodes.extend(ends.collect::<Vec<_>>());
        place += 1;
    }
    let mut once = nodes.clone();
    once.sort_unstable();
    once.dedup();
    if nodes.len() != branches.len() + 1 || once.len() != nodes.len() {
        return Err(format!("the branches of net {net} are no tree from its source"));
    }
    match job.sinks(net).iter().find(|sink| !nodes.contains(sink)) {
        Some(sink) => Err(format!("net {net} lacks its sink {sink}")),
        None => Ok(nodes),
    }
}

/// The base costs of all trees' nodes, summed, where every net has its sinks and no node has more nets than room.
pub fn cost(job: &Job, branches: &Branches) -> Result<u64, String> {
    let mut nets = vec![0; job.kind.len()];
    let mut sum = 0;
    assert_eq!(branches.len(), job.source.len(), "a list of branches for each net");
    for (net, branches) in branches.iter().enumerate() {
        for node in tree(job, net, branches)? {
            nets[node as usize] += 1;
            sum += cost::base(job.kind[node as usize]);
        }
    }
    match (0..nets.len()).find(|&node| nets[node] > job.capacity[node]) {
        Some(node) => Err(format!("node {node} has {} nets", nets[node])),
        None => Ok(sum),
    }
}

#[cfg(test)]
mod tests {
    use super::*;

    /// 0 and 1 are outputs, 2 and 3 wires, 4 and 5 inputs.
    fn job() -> Job {
        let rows = [vec![2, 3], vec![2, 3], vec![4, 5], vec![2, 5], vec![], vec![]];
        Job::new(vec![2, 2, 4, 7, 3, 3], vec![1; 6], &rows, &[(0, [4]), (1, [5])], 1)
    }

    #[test]
    fn legal_trees_have_a_cost() {
        assert_eq!(
            cost(&job(), &vec![vec![(0, 2), (2, 4)], vec![(1, 3), (3, 5)]]),
            Ok((20 + 20 + 19) + (20 + 80 + 19))
        );
    }

    #[test]
    fn what_is_not_legal_is_named() {
        let fault = |first: &[(u16, u16)], second: &[(u16, u16)]| {
            cost(&job(), &vec![first.to_vec(), second.to_vec()]).unwrap_err()
        };
        let (first, second) = ([(0, 2), (2, 4)], [(1, 3), (3, 5)]);
        assert_eq!(fault(&[(0, 4)], &second), "net 0 uses a switch from 0 to 4, which the block lacks");
        assert_eq!(fault(&[(2, 4)], &second), "the branches of net 0 are no tree from its source");
        assert_eq!(
            fault(&[(0, 2), (0, 3), (3, 2), (2, 4)], &second),
            "the branches of net 0 are no tree from its source"
        );
        assert_eq!(fault(&[(0, 2), (2, 5)], &second), "net 0 lacks its sink 4");
        assert_eq!(fault(&first, &[(1, 2), (2, 5)]), "node 2 has 2 nets");
        assert_eq!(fault(&first, &[]), "net 1 lacks its sink 5");
    }
}
