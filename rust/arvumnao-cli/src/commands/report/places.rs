//! Where nodes stand: lines `node,x,y`.

use crate::failure::Failure;
use crate::files::Text;
use std::collections::BTreeMap;
use std::ffi::OsStr;

/// The highest x or y.
const MOST: u32 = 65_535;

pub struct Places {
    name: String,
    /// Each node's line, x and y.
    lines: BTreeMap<u32, (usize, u32, u32)>,
}

impl Places {
    pub fn read(name: &OsStr) -> Result<Places, Failure> {
        let text = Text::read_long(name)?;
        let mut places = Places { name: text.name, lines: BTreeMap::new() };
        for (place, line) in String::from_utf8_lossy(&text.bytes).lines().enumerate() {
            let [node, x, y] = numbers(line).ok_or_else(|| {
                places.fault(
                    place + 1,
                    &format!("a line is node,x,y, three numbers of which x and y are at most {MOST}"),
                )
            })?;
            if let Some((first, _, _)) = places.lines.insert(node, (place + 1, x, y)) {
                return Err(
                    places.fault(place + 1, &format!("node {node} has a place in line {first} already"))
                );
            }
        }
        Ok(places)
    }

    /// Refuses a node that the job lacks.
    pub fn test(&self, nodes: usize) -> Result<(), Failure> {
        let unknown = self
            .lines
            .iter()
            .filter(|(node, _)| **node as usize >= nodes)
            .map(|(node, (line, ..))| (line, node));
        match unknown.min() {
            None => Ok(()),
            Some((line, node)) => {
                Err(self.fault(*line, &format!("the job has no node {node}, but nodes 0 to {}", nodes - 1)))
            }
        }
    }

    /// Each node with its x and y.
    pub fn list(&self) -> impl Iterator<Item = (u32, u32, u32)> + '_ {
        self.lines.iter().map(|(node, (_, x, y))| (*node, *x, *y))
    }

    fn fault(&self, line: usize, why: &str) -> Failure {
        Failure::File(format!("{}:{line}", self.name), why.to_string())
    }
}

fn numbers(line: &str) -> Option<[u32; 3]> {
    let digits = |field: &str| field.bytes().all(|byte| byte.is_ascii_digit());
    let fields: Option<Vec<u32>> =
        line.split(',').map(|field| field.parse().ok().filter(|_| digits(field))).collect();
    let numbers: [u32; 3] = fields?.try_into().ok()?;
    (numbers[1].max(numbers[2]) <= MOST).then_some(numbers)
}
