//! Nodes and variables.

use super::table::{Holding, Table, Task, FIRST_JOB, LONGEST_BODY};
use planner::places::Record;
use planner::{question, Outcome, Refused};

pub const MOST_NODES: usize = 1_024;
pub const MOST_VARIABLES: usize = 8_191;

pub struct Node {
    pub steps: u64,
    pub jobs: u64,
    /// The node's first variable. Those of steps come first, then those of jobs, then those of methods.
    pub first: u32,
    pub step_count: u32,
    /// How many variables of each kind there are: none but those of steps at a slot.
    pub job_count: u32,
    pub method_count: u32,
    pub inner: bool,
    pub depth: u8,
    pub children: u8,
    pub parent: u16,
    /// Where its children's numbers begin among all of these.
    pub below: u16,
}

impl Node {
    /// How many task variables there are.
    pub fn tasks(&self) -> u32 {
        self.step_count + self.job_count
    }

    pub fn first_method(&self) -> u32 {
        self.first + self.tasks()
    }

    pub fn step(&self, step: usize) -> u32 {
        self.first + rank(self.steps, step)
    }

    pub fn job(&self, job: usize) -> u32 {
        self.first + self.step_count + rank(self.jobs, job)
    }

    /// The task's variable, where it has one. A job has none at a slot.
    pub fn task(&self, task: Task) -> Option<u32> {
        match task.checked_sub(FIRST_JOB) {
            None => Some(self.step(usize::from(task))),
            Some(job) => self.inner.then(|| self.job(usize::from(job))),
        }
    }

    fn record(&self) -> Record {
        Record { depth: self.depth.into(), parent: self.parent.into(), children: self.children.into(), steps: self.steps, jobs: self.jobs }
    }
}

/// How many members are less.
fn rank(set: u64, member: usize) -> u32 {
    (set & ((1 << member) - 1)).count_ones()
}

/// The members, rising.
pub fn members(mut set: u64) -> impl Iterator<Item = usize> {
    std::iter::from_fn(move || {
        let least = set.trailing_zeros() as usize;
        (set != 0).then(|| {
            set &= set - 1;
            least
        })
    })
}

/// The same for methods.
pub fn methods_in(set: u128) -> impl Iterator<Item = usize> {
    members(set as u64).chain(members((set >> 64) as u64).map(|member| member + 64))
}

pub struct Plan<'a> {
    pub table: Table<'a>,
    pub nodes: Vec<Node>,
    pub children: Vec<u16>,
    pub slots: usize,
    pub variables: usize,
    /// The first fact variable.
    pub first_fact: u32,
}

impl<'a> Plan<'a> {
    pub fn of(table: Table<'a>) -> Outcome<Plan<'a>> {
        let mut plan = Plan { table, nodes: Vec::with_capacity(MOST_NODES), children: Vec::new(), slots: 0, variables: 0, first_fact: 1 };
        plan.add(0, 0, Holding { steps: 0, jobs: 1 << plan.table.root });
        plan.grow(0)?;
        plan.variables = plan.first_fact as usize - 1 + (plan.slots + 1) * plan.table.facts;
        question(9, plan.variables <= MOST_VARIABLES)?;
        Ok(plan)
    }

    pub fn children(&self, node: &Node) -> impl Iterator<Item = &Node> {
        self.children[usize::from(node.below)..][..usize::from(node.children)].iter().map(|number| &self.nodes[usize::from(*number)])
    }

    /// All methods of the jobs that a node may hold.
    pub fn methods(&self, node: &Node) -> u128 {
        members(node.jobs).fold(0, |set, job| set | self.table.jobs[job].methods)
    }

    pub fn slots(&self) -> impl Iterator<Item = &Node> {
        self.nodes.iter().filter(|node| !node.inner)
    }

    fn add(&mut self, parent: usize, depth: u8, Holding { steps, jobs }: Holding) {
        let inner = jobs != 0 && usize::from(depth) < self.table.depth;
        let (job_count, method_count) = if inner { self.table.count(jobs) } else { (0, 0) };
        let first = self.first_fact;
        let step_count = steps.count_ones();
        self.first_fact += step_count + job_count + method_count;
        self.slots += usize::from(!inner);
        let (parent, below) = (parent as u16, 0);
        self.nodes.push(Node { steps, jobs, first, step_count, job_count, method_count, inner, depth, children: 0, parent, below });
    }

    /// What is below an inner node.
    fn grow(&mut self, number: usize) -> Outcome<()> {
        let Node { steps, jobs, depth, .. } = self.nodes[number];
        let (longest, mut holdings) = self.table.holdings(jobs);
        let children = if steps == 0 { longest } else { longest.max(1) };
        holdings[0].steps |= steps;
        let below = self.children.len();
        self.nodes[number].children = children as u8;
        self.nodes[number].below = below as u16;
        self.children.resize(below + children, 0);
        for (place, holding) in holdings[..children].iter().enumerate() {
            let child = self.nodes.len();
            question(8, child < MOST_NODES)?;
            self.children[below + place] = child as u16;
            self.add(number, depth + 1, *holding);
            if self.nodes[child].inner {
                self.grow(child)?;
            }
        }
        Ok(())
    }

    // The lent tree

    pub fn write_records(&self, tree: &mut [Record]) {
        tree.iter_mut().zip(&self.nodes).for_each(|(record, node)| *record = node.record());
    }

    /// Question 10.
    pub fn with_tree(self, tree: &[Record]) -> Outcome<Plan<'a>> {
        let same = tree.len() >= self.nodes.len() && self.nodes.iter().zip(tree).all(|(node, record)| node.record() == *record);
        same.then_some(self).ok_or(Refused(10))
    }
}

impl Table<'_> {
    /// How many jobs there are, and how many methods of theirs.
    fn count(&self, jobs: u64) -> (u32, u32) {
        members(jobs).fold((0, 0), |(jobs, methods), job| (jobs + 1, methods + self.jobs[job].method_count))
    }

    /// What each child of a node with these jobs may hold, and the length of the longest body.
    fn holdings(&self, jobs: u64) -> (usize, [Holding; LONGEST_BODY]) {
        let mut holdings = [Holding::default(); LONGEST_BODY];
        let mut longest = 0;
        for job in members(jobs).map(|job| &self.jobs[job]) {
            longest = longest.max(job.longest);
            holdings.iter_mut().zip(&job.holds).for_each(|(all, own)| all.unite(*own));
        }
        (longest, holdings)
    }
}
