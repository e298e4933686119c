//! What a table says, once its names are looked up.

use std::collections::BTreeSet;

pub type Facts = BTreeSet<usize>;

#[derive(Debug, Clone, Copy, PartialEq, Eq, PartialOrd, Ord, Hash)]
pub enum Task {
    Step(usize),
    Job(usize),
}

#[derive(Debug, Clone)]
pub struct Step {
    pub name: String,
    pub needs: Facts,
    pub sets: Facts,
    pub clears: Facts,
}

#[derive(Debug, Clone)]
pub struct Method {
    pub job: usize,
    pub body: Vec<Task>,
}

#[derive(Debug, Clone)]
pub struct Table {
    pub facts: Vec<String>,
    pub steps: Vec<Step>,
    pub jobs: Vec<String>,
    pub methods: Vec<Method>,
    pub start: Facts,
    pub root: usize,
    pub depth: usize,
}

impl Step {
    pub fn can_be_done(&self, facts: &Facts) -> bool {
        self.needs.is_subset(facts)
    }

    /// "It then clears its cleared facts and afterwards sets its set facts, so a fact in both lists is true."
    pub fn done(&self, facts: &Facts) -> Facts {
        let kept: Facts = facts.difference(&self.clears).copied().collect();
        kept.union(&self.sets).copied().collect()
    }
}

impl Table {
    /// The numbers of a job's methods, rising.
    pub fn methods_of(&self, job: usize) -> impl Iterator<Item = usize> + '_ {
        (0..self.methods.len()).filter(move |&m| self.methods[m].job == job)
    }
}
