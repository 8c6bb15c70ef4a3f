//! The job's tables, as 01 numbers them. They are taken to be sound.

/// The numbers of a P line.
#[derive(Clone, Copy)]
pub struct Tuning {
    pub first: u32,
    pub up: u32,
    pub down: u32,
    pub step: u32,
}

/// Tables 9 and 10.
#[derive(Clone, Copy)]
pub struct Timing<'a> {
    pub delay: &'a [u16],
    pub criticality: &'a [u8],
}

/// A job: tables 1 to 7, the limit of iterations and the tuning, and what a timed job alone has.
pub struct Job<'a> {
    pub kind: &'a [u8],
    pub capacity: &'a [u8],
    pub first_edge: &'a [u32],
    pub edge_target: &'a [u16],
    pub source: &'a [u16],
    pub first_sink: &'a [u32],
    pub sink: &'a [u16],
    pub limit: u32,
    pub tuning: Tuning,
    pub timing: Option<Timing<'a>>,
}

impl<'a> Job<'a> {
    pub fn nodes(&self) -> usize {
        self.kind.len()
    }

    pub fn nets(&self) -> usize {
        self.source.len()
    }

    pub fn source_of(&self, net: usize) -> usize {
        usize::from(self.source[net])
    }

    /// The nodes that `node` has an edge to.
    pub fn targets(&self, node: usize) -> &'a [u16] {
        &self.edge_target[self.first_edge[node] as usize..self.first_edge[node + 1] as usize]
    }

    /// The net's sinks as listed.
    pub fn sinks(&self, net: usize) -> &'a [u16] {
        &self.sink[self.sink_places(net)]
    }

    /// The places of the net's sinks in table 7, as listed.
    pub fn sink_places(&self, net: usize) -> std::ops::Range<usize> {
        self.first_sink[net] as usize..self.first_sink[net + 1] as usize
    }

    pub fn has_edge(&self, from: usize, to: usize) -> bool {
        self.targets(from).iter().any(|&v| usize::from(v) == to)
    }

    pub fn has_sink(&self, net: usize, node: usize) -> bool {
        self.sinks(net).iter().any(|&v| usize::from(v) == node)
    }
}
