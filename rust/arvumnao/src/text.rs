//! A job as text.

use crate::job::{Job, Terms};
use crate::refusal::Refusal;
use std::fmt::Write;

impl Job {
    /// The job text, which [`Job::read`] reads back to the same job. Lines P and V are left out if they have the defaults.
    /// Refused as [`Job::check`] is. Under rule 1 `until` is ignored, and the text doesn't have it: it is read back as 1.
    ///
    /// ```
    /// let text = include_str!("../../../examples/job_crowded.txt");
    /// assert_eq!(arvumnao::Job::read(text.as_bytes())?.text()?, text);
    /// # Ok::<(), arvumnao::Refusal>(())
    /// ```
    pub fn text(&self) -> Result<String, Refusal> {
        self.check()?;
        let mut text = self.head();
        self.put_block(&mut text);
        self.put_nets(&mut text);
        Ok(text)
    }

    /// Lines F, P, V and W.
    fn head(&self) -> String {
        let (nodes, edges) = (self.block.kind.len(), self.block.edge_target.len());
        let Terms { limit, first, up, down, step, rule, until } = self.terms;
        let mut text = format!("F,{nodes},{edges},{},{limit}\n", self.nets.source.len());
        let plain = Terms { limit, rule, until, ..Terms::default() };
        if self.terms != plain {
            put(&mut text, format_args!("P,{first},{up},{down},{step}"));
        }
        match (rule, until) {
            (1, _) => {}
            (_, 1) => put(&mut text, format_args!("V,{rule}")),
            _ => put(&mut text, format_args!("V,{rule},{until}")),
        }
        if self.timing.is_some() {
            put(&mut text, format_args!("W"));
        }
        text
    }

    /// Lines N and E.
    fn put_block(&self, text: &mut String) {
        let block = &self.block;
        for (node, (kind, capacity)) in block.kind.iter().zip(&block.capacity).enumerate() {
            match &self.timing {
                None => put(text, format_args!("N,{node},{kind},{capacity}")),
                Some(timing) => put(text, format_args!("N,{node},{kind},{capacity},{}", timing.delay[node])),
            }
        }
        for (from, ends) in block.first_edge.windows(2).enumerate() {
            for to in &block.edge_target[ends[0] as usize..ends[1] as usize] {
                put(text, format_args!("E,{from},{to}"));
            }
        }
    }

    /// Lines S and T.
    fn put_nets(&self, text: &mut String) {
        for (net, source) in self.nets.source.iter().enumerate() {
            put(text, format_args!("S,{net},{source}"));
            let first = self.nets.first_sink[net] as usize;
            for place in first..first + self.nets.sinks(net).len() {
                put(text, format_args!("{}", self.sink_line(net, place)));
            }
        }
    }

    /// The T line of a net's sink at a place of table 7.
    pub(crate) fn sink_line(&self, net: usize, place: usize) -> String {
        let sink = self.nets.sink[place];
        match &self.timing {
            None => format!("T,{net},{sink}"),
            Some(timing) => format!("T,{net},{sink},{}", timing.criticality[place]),
        }
    }

    /// The T line that lists a sink of a source first; none if no net has it.
    pub(crate) fn first_listing(&self, source: u16, sink: u16) -> Option<String> {
        let mut nets = (0..self.nets.source.len()).filter(|net| self.nets.source[*net] == source);
        nets.find_map(|net| {
            let place = self.nets.sinks(net).iter().position(|listed| *listed == sink)?;
            Some(self.sink_line(net, self.nets.first_sink[net] as usize + place))
        })
    }
}

/// Adds a line.
fn put(text: &mut String, line: std::fmt::Arguments) {
    writeln!(text, "{line}").expect("a string takes every line");
}
