//! Trees read off the records, kept up to date while walking through them.

use crate::job::Job;

/// Every net's tree: the nodes of its records in the latest iteration in
/// which it has one.
pub struct Trees {
    nodes: usize,
    /// Per net: that iteration, 0 without a record.
    latest: Vec<u32>,
    /// Per net: the tree's nodes, each once.
    members: Vec<Vec<usize>>,
    /// Per net: the nodes in which the tree's branches end.
    ends: Vec<Vec<usize>>,
    /// At net × nodes + node: whether the tree has the node.
    has: Vec<bool>,
    /// Per node: the nets whose tree has it.
    users: Vec<u32>,
}

impl Trees {
    pub fn new(job: &Job) -> Trees {
        let (nodes, nets) = (job.nodes(), job.nets());
        Trees {
            nodes,
            latest: vec![0; nets],
            members: vec![Vec::new(); nets],
            ends: vec![Vec::new(); nets],
            has: vec![false; nets * nodes],
            users: vec![0; nodes],
        }
    }

    /// Drops the net's tree if it is of an earlier iteration. To be called
    /// before the net's turn: its own old tree counts neither as its tree nor
    /// among the others.
    pub fn begin(&mut self, net: usize, iteration: u32) {
        if self.latest[net] == iteration {
            return;
        }
        self.latest[net] = iteration;
        self.ends[net].clear();
        for node in std::mem::take(&mut self.members[net]) {
            self.has[net * self.nodes + node] = false;
            self.users[node] -= 1;
        }
    }

    /// Adds a record's path to the net's tree.
    pub fn add(&mut self, net: usize, path: &[usize]) {
        self.ends[net].extend(path.iter().skip(1));
        for &node in path {
            let place = net * self.nodes + node;
            if !self.has[place] {
                self.has[place] = true;
                self.users[node] += 1;
                self.members[net].push(node);
            }
        }
    }

    pub fn has(&self, net: usize, node: usize) -> bool {
        self.has[net * self.nodes + node]
    }

    pub fn members(&self, net: usize) -> &[usize] {
        &self.members[net]
    }

    pub fn users(&self, node: usize) -> u32 {
        self.users[node]
    }

    /// The nets besides `net` whose tree has the node.
    pub fn others(&self, net: usize, node: usize) -> u32 {
        self.users[node] - u32::from(self.has(net, node))
    }

    /// How far the node's users pass its capacity.
    pub fn over(&self, job: &Job, node: usize) -> u32 {
        self.users[node].saturating_sub(u32::from(job.capacity[node]))
    }

    /// A node in which two branches of the net end, or its source if one does.
    pub fn reached_twice(&self, job: &Job, net: usize) -> Option<usize> {
        let mut ends = self.ends[net].clone();
        ends.push(job.source_of(net));
        ends.sort_unstable();
        ends.windows(2).find(|pair| pair[0] == pair[1]).map(|pair| pair[0])
    }
}
