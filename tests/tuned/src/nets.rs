//! The nets as they are routed: those of one source are joined into the first of them.

/// Tables 5 to 7 after the join; a net that is joined into another has no sinks.
pub struct Nets<'a> {
    pub source: &'a [u16],
    first_sink: Vec<u32>,
    sink: Vec<u16>,
}

const NONE: usize = usize::MAX;

impl<'a> Nets<'a> {
    /// Each net is looked at once, and each sink.
    pub fn joined(nodes: usize, source: &'a [u16], first_sink: &[u32], sink: &[u16]) -> Self {
        let (leads, next) = chains(nodes, source);
        let mut nets = Nets { source, first_sink: vec![0], sink: Vec::with_capacity(sink.len()) };
        // For each node the net that took it as a sink last, plus one.
        let mut taken = vec![0; nodes];
        for (net, leads) in leads.into_iter().enumerate() {
            let mut part = if leads { net } else { NONE };
            while part != NONE {
                for &v in &sink[first_sink[part] as usize..first_sink[part + 1] as usize] {
                    if taken[v as usize] != net + 1 {
                        taken[v as usize] = net + 1;
                        nets.sink.push(v);
                    }
                }
                part = next[part];
            }
            nets.first_sink.push(nets.sink.len() as u32);
        }
        nets
    }

    pub fn sinks(&self, net: usize) -> &[u16] {
        &self.sink[self.first_sink[net] as usize..self.first_sink[net + 1] as usize]
    }
}

/// Which nets are the first of their source, and for each net the next of the same source.
fn chains(nodes: usize, source: &[u16]) -> (Vec<bool>, Vec<usize>) {
    let mut last = vec![NONE; nodes];
    let mut next = vec![NONE; source.len()];
    let mut leads = vec![false; source.len()];
    for (net, &v) in source.iter().enumerate() {
        match last[v as usize] {
            NONE => leads[net] = true,
            before => next[before] = net,
        }
        last[v as usize] = net;
    }
    (leads, next)
}
