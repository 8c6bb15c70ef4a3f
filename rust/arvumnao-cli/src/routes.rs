//! The routes text, taken apart: its lines are the proved writer's.

/// A routes text.
#[derive(Debug, Default, PartialEq, Eq)]
pub struct Routes {
    pub iteration: u32,
    pub turns: u32,
    /// Net, from and to of each branch.
    pub branches: Vec<[u32; 3]>,
    /// Each net that was joined into another, with that one.
    pub joined: Vec<[u32; 2]>,
}

impl Routes {
    pub fn of(text: &str) -> Routes {
        let mut routes = Routes::default();
        for line in text.lines() {
            let numbers: Vec<u32> =
                line.split(',').skip(1).filter_map(|number| number.parse().ok()).collect();
            match (line.as_bytes().first(), &numbers[..]) {
                (Some(b'R'), &[iteration, turns]) => (routes.iteration, routes.turns) = (iteration, turns),
                (Some(b'B'), &[net, from, to]) => routes.branches.push([net, from, to]),
                (Some(b'J'), &[net, first]) => routes.joined.push([net, first]),
                _ => {}
            }
        }
        routes
    }

    /// The nets that have branches, each once and in order, with theirs.
    pub fn nets(&self) -> impl Iterator<Item = (u32, &[[u32; 3]])> {
        self.branches.chunk_by(|one, other| one[0] == other[0]).map(|branches| (branches[0][0], branches))
    }
}

#[cfg(test)]
mod tests {
    use super::*;

    #[test]
    fn taken_apart() {
        let routes = Routes::of("R,2,5\nB,0,0,3\nB,0,3,4\nB,1,1,2\nJ,2,0\n");
        assert_eq!((routes.iteration, routes.turns), (2, 5));
        let nets: Vec<_> = routes.nets().collect();
        assert_eq!(nets, [(0, &[[0, 0, 3], [0, 3, 4]][..]), (1, &[[1, 1, 2]][..])]);
        assert_eq!(routes.joined, [[2, 0]]);
    }
}
