//! Demand 3 is that of joined nets: all nets of one source are one, under the first one's number.

use crate::job::{Job, Timing};

/// Tables 6 and 7 after the join, and table 10 of a timed job. The first net of a source has the sinks of all its nets, in listed order,
/// none twice, with the criticality of the first listing; the others have none.
pub struct Joined {
    first_sink: Vec<u32>,
    sink: Vec<u16>,
    criticality: Vec<u8>,
}

impl Joined {
    pub fn new(job: &Job) -> Joined {
        let mut joined = Joined { first_sink: vec![0], sink: Vec::new(), criticality: Vec::new() };
        for (net, source) in job.source.iter().enumerate() {
            let begin = joined.sink.len();
            if !job.source[..net].contains(source) {
                let same = (net..job.nets()).filter(|&other| job.source[other] == *source);
                joined.add(job, begin, same.flat_map(|other| job.sink_places(other)));
            }
            joined.first_sink.push(joined.sink.len() as u32);
        }
        joined
    }

    /// Adds those of the sinks at these places of table 7 that aren't there yet, from the place where the net's own begin.
    fn add(&mut self, job: &Job, begin: usize, places: impl Iterator<Item = usize>) {
        for place in places {
            if !self.sink[begin..].contains(&job.sink[place]) {
                self.sink.push(job.sink[place]);
                self.criticality.extend(job.timing.map(|timing| timing.criticality[place]));
            }
        }
    }

    /// The job with these tables.
    pub fn job<'a>(&'a self, job: &Job<'a>) -> Job<'a> {
        let timing = job.timing.map(|timing| Timing { criticality: &self.criticality, ..timing });
        Job { first_sink: &self.first_sink, sink: &self.sink, timing, ..*job }
    }
}
