//! The tree of places: question 8.

use crate::table::{Table, Task};
use crate::{question, Outcome};
use std::collections::BTreeSet;

pub const MOST_NODES: usize = 1_024;

#[derive(Debug, Clone)]
pub struct Node {
    pub depth: usize,
    pub parent: usize,
    pub children: Vec<usize>,
    pub steps: BTreeSet<usize>,
    pub jobs: BTreeSet<usize>,
    pub inner: bool,
}

/// The nodes in their order, the root first.
pub fn places(table: &Table) -> Outcome<Vec<Node>> {
    let mut nodes = Vec::new();
    grow(table, &mut nodes, 0, 0, BTreeSet::from([Task::Job(table.root)]))?;
    Ok(nodes)
}

/// "A node is numbered before its children, and each child's whole part before the next child."
fn grow(table: &Table, nodes: &mut Vec<Node>, parent: usize, depth: usize, may_hold: BTreeSet<Task>) -> Outcome<usize> {
    question(8, nodes.len() < MOST_NODES)?;
    let number = nodes.len();
    let node = node(table, parent, depth, &may_hold);
    let holdings = children(table, &node);
    nodes.push(node);
    for holding in holdings {
        let child = grow(table, nodes, number, depth + 1, holding)?;
        nodes[number].children.push(child);
    }
    Ok(number)
}

fn node(table: &Table, parent: usize, depth: usize, may_hold: &BTreeSet<Task>) -> Node {
    let mut node = Node { depth, parent, children: Vec::new(), steps: BTreeSet::new(), jobs: BTreeSet::new(), inner: false };
    for task in may_hold {
        match task {
            Task::Step(step) => node.steps.insert(*step),
            Task::Job(job) => node.jobs.insert(*job),
        };
    }
    node.inner = !node.jobs.is_empty() && depth < table.depth;
    node
}

/// What each child may hold: "Child i may hold the ith name of each method of each job the node may hold; child 1 may also hold the
/// node's steps."
fn children(table: &Table, node: &Node) -> Vec<BTreeSet<Task>> {
    if !node.inner {
        return Vec::new();
    }
    let bodies: Vec<&Vec<Task>> =
        table.methods.iter().filter(|method| node.jobs.contains(&method.job)).map(|method| &method.body).collect();
    let longest = bodies.iter().map(|body| body.len()).max().unwrap_or(0);
    let count = if node.steps.is_empty() { longest } else { longest.max(1) };
    let mut holdings: Vec<BTreeSet<Task>> =
        (0..count).map(|place| bodies.iter().filter_map(|body| body.get(place)).copied().collect()).collect();
    if let Some(first) = holdings.first_mut() {
        first.extend(node.steps.iter().map(|step| Task::Step(*step)));
    }
    holdings
}

/// "A record holds the node's depth, its parent's number (0 at the root), its child count, and the sets of steps and of jobs it may hold."
/// A set has bit i for number i. Libraries are lent records too, so the fields lie in this order.
#[repr(C)]
#[derive(Debug, Clone, Copy, PartialEq, Eq)]
pub struct Record {
    pub depth: u64,
    pub parent: u64,
    pub children: u64,
    pub steps: u64,
    pub jobs: u64,
}

impl Record {
    pub const FIELDS: usize = 5;

    pub fn of(fields: [u64; Record::FIELDS]) -> Record {
        let [depth, parent, children, steps, jobs] = fields;
        Record { depth, parent, children, steps, jobs }
    }

    pub fn fields(&self) -> [u64; Record::FIELDS] {
        [self.depth, self.parent, self.children, self.steps, self.jobs]
    }

    /// The same but for one field.
    pub fn with(&self, field: usize, value: u64) -> Record {
        let mut fields = self.fields();
        fields[field] = value;
        Record::of(fields)
    }
}

pub fn record(node: &Node) -> Record {
    let bits = |set: &BTreeSet<usize>| set.iter().map(|member| 1u64 << member).sum();
    Record {
        depth: node.depth as u64,
        parent: node.parent as u64,
        children: node.children.len() as u64,
        steps: bits(&node.steps),
        jobs: bits(&node.jobs),
    }
}

#[cfg(test)]
mod tests {
    use super::*;
    use crate::files::EXAMPLE;
    use crate::reader::read;
    use crate::Refused;

    fn nodes(file: &str) -> Outcome<usize> {
        places(&read(file.as_bytes()).unwrap()).map(|nodes| nodes.len())
    }

    #[test]
    fn edges_of_question_8() {
        let three = EXAMPLE.replace("serve\tlift", "serve\tserve,serve,serve");
        assert_eq!(nodes(&three.replace("serve\t1", "serve\t5")), Ok(364));
        assert_eq!(nodes(&three.replace("serve\t1", "serve\t6")), Err(Refused(8)));
    }

    #[test]
    fn the_example_has_two_nodes() {
        let nodes = places(&read(EXAMPLE.as_bytes()).unwrap()).unwrap();
        let records: Vec<Record> = nodes.iter().map(record).collect();
        let serve = Record { depth: 0, parent: 0, children: 1, steps: 0, jobs: 1 };
        let lift = Record { depth: 1, parent: 0, children: 0, steps: 1, jobs: 0 };
        assert_eq!(records, [serve, lift]);
    }
}
