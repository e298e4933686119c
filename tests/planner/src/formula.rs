//! The clauses, in document 01's order.

use crate::places::{places, Node};
use crate::reader::read;
use crate::table::Table;
use crate::variables::{variables, NodeVariables, Variables};
use crate::Outcome;

pub type Clause = Vec<i32>;

/// An accepted table with all that follows from it: questions 2 to 9 are met.
pub struct Formula {
    pub table: Table,
    pub nodes: Vec<Node>,
    pub variables: Variables,
    pub clauses: Vec<Clause>,
}

pub fn formula(file: &[u8]) -> Outcome<Formula> {
    let table = read(file)?;
    let nodes = places(&table)?;
    let variables = variables(&table, &nodes)?;
    let clauses = Writer { table: &table, nodes: &nodes, variables: &variables, clauses: Vec::new() }.all();
    Ok(Formula { table, nodes, variables, clauses })
}

struct Writer<'a> {
    table: &'a Table,
    nodes: &'a [Node],
    variables: &'a Variables,
    clauses: Vec<Clause>,
}

impl Writer<'_> {
    fn all(mut self) -> Vec<Clause> {
        let root = self.variables.at[0].jobs[&self.table.root];
        self.clauses.push(vec![root]);
        for number in 0..self.nodes.len() {
            self.node(number);
        }
        self.start();
        let slots: Vec<usize> = (0..self.nodes.len()).filter(|number| !self.nodes[*number].inner).collect();
        for (before, number) in slots.into_iter().enumerate() {
            self.slot(number, before);
        }
        self.clauses
    }

    /// Rule 2.
    fn node(&mut self, number: usize) {
        let here = &self.variables.at[number];
        self.at_most_one(&here.tasks());
        if self.nodes[number].inner {
            let methods: Vec<i32> = here.methods.values().copied().collect();
            self.at_most_one(&methods);
            self.jobs_have_methods(here);
            self.methods_have_jobs(here);
            self.methods_have_bodies(number);
            self.steps_are_handed_down(number);
            self.children_have_reasons(number);
        }
    }

    /// (a) and (b): "for each pair .., first with second then with later ones: both negated."
    fn at_most_one(&mut self, variables: &[i32]) {
        for (place, first) in variables.iter().enumerate() {
            for second in &variables[place + 1..] {
                self.clauses.push(vec![-first, -second]);
            }
        }
    }

    /// (c)
    fn jobs_have_methods(&mut self, here: &NodeVariables) {
        for (job, variable) in &here.jobs {
            let mut clause = vec![-variable];
            clause.extend(self.table.methods_of(*job).map(|method| here.methods[&method]));
            self.clauses.push(clause);
        }
    }

    /// (d)
    fn methods_have_jobs(&mut self, here: &NodeVariables) {
        for (method, variable) in &here.methods {
            self.clauses.push(vec![-variable, here.jobs[&self.table.methods[*method].job]]);
        }
    }

    /// (e)
    fn methods_have_bodies(&mut self, number: usize) {
        let variables = self.variables;
        for (method, variable) in &variables.at[number].methods {
            for (place, child) in self.nodes[number].children.iter().enumerate() {
                let below = &variables.at[*child];
                match self.table.methods[*method].body.get(place) {
                    Some(task) => self.clauses.push(std::iter::once(-variable).chain(below.task(*task)).collect()),
                    None => self.excludes(*variable, below),
                }
            }
        }
    }

    /// (f)
    fn steps_are_handed_down(&mut self, number: usize) {
        let variables = self.variables;
        let children = &self.nodes[number].children;
        for (step, variable) in &variables.at[number].steps {
            self.clauses.push(vec![-variable, variables.at[children[0]].steps[step]]);
            for child in &children[1..] {
                self.excludes(*variable, &variables.at[*child]);
            }
        }
    }

    fn excludes(&mut self, variable: i32, below: &NodeVariables) {
        for task in below.tasks() {
            self.clauses.push(vec![-variable, -task]);
        }
    }

    /// (g)
    fn children_have_reasons(&mut self, number: usize) {
        let tasks = self.variables.at[number].tasks();
        for child in &self.nodes[number].children {
            for below in self.variables.at[*child].tasks() {
                let mut clause = tasks.clone();
                clause.push(-below);
                self.clauses.push(clause);
            }
        }
    }

    /// Rule 3.
    fn start(&mut self) {
        for fact in 0..self.table.facts.len() {
            let variable = self.variables.fact(0, fact);
            let true_at_start = self.table.start.contains(&fact);
            self.clauses.push(vec![if true_at_start { variable } else { -variable }]);
        }
    }

    /// Rule 4, of the slot that lies behind boundary `before`.
    fn slot(&mut self, number: usize, before: usize) {
        let steps = &self.variables.at[number].steps;
        for (step, variable) in steps {
            self.step(*step, *variable, before);
        }
        for fact in 0..self.table.facts.len() {
            self.keep(fact, number, before);
        }
    }

    fn step(&mut self, number: usize, variable: i32, before: usize) {
        let step = &self.table.steps[number];
        for fact in &step.needs {
            self.clauses.push(vec![-variable, self.variables.fact(before, *fact)]);
        }
        for fact in &step.sets {
            self.clauses.push(vec![-variable, self.variables.fact(before + 1, *fact)]);
        }
        for fact in step.clears.difference(&step.sets) {
            self.clauses.push(vec![-variable, -self.variables.fact(before + 1, *fact)]);
        }
    }

    fn keep(&mut self, fact: usize, number: usize, before: usize) {
        let earlier = self.variables.fact(before, fact);
        let later = self.variables.fact(before + 1, fact);
        let mut lost = vec![-earlier, later];
        let mut won = vec![earlier, -later];
        for (step, variable) in &self.variables.at[number].steps {
            let step = &self.table.steps[*step];
            if step.sets.contains(&fact) {
                won.push(*variable);
            } else if step.clears.contains(&fact) {
                lost.push(*variable);
            }
        }
        self.clauses.push(lost);
        self.clauses.push(won);
    }
}
