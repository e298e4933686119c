//! The numbers of the variables: question 9.

use crate::places::Node;
use crate::table::{Table, Task};
use crate::{question, Outcome};
use std::collections::BTreeMap;

pub const MOST_VARIABLES: i32 = 8_191;

/// A node's variables, by the number of the step, job or method.
#[derive(Debug, Clone, Default)]
pub struct NodeVariables {
    pub steps: BTreeMap<usize, i32>,
    pub jobs: BTreeMap<usize, i32>,
    pub methods: BTreeMap<usize, i32>,
}

#[derive(Debug, Clone)]
pub struct Variables {
    pub at: Vec<NodeVariables>,
    pub count: i32,
    before_facts: i32,
    facts: usize,
}

impl NodeVariables {
    /// "Task variables" means steps and jobs.
    pub fn tasks(&self) -> Vec<i32> {
        self.steps.values().chain(self.jobs.values()).copied().collect()
    }

    pub fn task(&self, task: Task) -> Option<i32> {
        match task {
            Task::Step(step) => self.steps.get(&step).copied(),
            Task::Job(job) => self.jobs.get(&job).copied(),
        }
    }
}

impl Variables {
    pub fn fact(&self, boundary: usize, fact: usize) -> i32 {
        self.before_facts + (boundary * self.facts + fact) as i32 + 1
    }
}

pub fn variables(table: &Table, nodes: &[Node]) -> Outcome<Variables> {
    let mut last = 0;
    let at: Vec<NodeVariables> = nodes.iter().map(|node| at_node(table, node, &mut last)).collect();
    let boundaries = nodes.iter().filter(|node| !node.inner).count() + 1;
    let count = last + (boundaries * table.facts.len()) as i32;
    question(9, count <= MOST_VARIABLES)?;
    Ok(Variables { at, count, before_facts: last, facts: table.facts.len() })
}

fn at_node(table: &Table, node: &Node, last: &mut i32) -> NodeVariables {
    let mut number = |member: usize| {
        *last += 1;
        (member, *last)
    };
    let steps = node.steps.iter().map(|step| number(*step)).collect();
    let mut variables = NodeVariables { steps, ..NodeVariables::default() };
    if node.inner {
        variables.jobs = node.jobs.iter().map(|job| number(*job)).collect();
        let methods = (0..table.methods.len()).filter(|method| node.jobs.contains(&table.methods[*method].job));
        variables.methods = methods.map(number).collect();
    }
    variables
}
