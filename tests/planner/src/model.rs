//! Models: question 15, and the procedure tree that a model gives.

use crate::answer;
use crate::formula::{Clause, Formula};
use crate::procedure::{listing, Tree};
use crate::table::Task;
use crate::{question, Outcome};
use std::rc::Rc;

fn is_true(values: &[bool], literal: i32) -> bool {
    values[literal.unsigned_abs() as usize - 1] == (literal > 0)
}

pub fn satisfies(values: &[bool], clause: &Clause) -> bool {
    clause.iter().any(|literal| is_true(values, *literal))
}

pub fn every_clause_is_satisfied(formula: &Formula, values: &[bool]) -> Outcome<()> {
    question(15, formula.clauses.iter().all(|clause| satisfies(values, clause)))
}

/// The model that an answer gives: questions 12 to 15.
pub fn taken(formula: &Formula, file: &[u8]) -> Outcome<Vec<bool>> {
    let values = answer::values(file, formula.variables.count)?;
    every_clause_is_satisfied(formula, &values)?;
    Ok(values)
}

/// The listing of a model's tree. "The tree that a model gives is read from node 0 down."
pub fn listed(formula: &Formula, model: &[bool]) -> String {
    listing(&formula.table, &tree_at(formula, model, 0))
}

fn tree_at(formula: &Formula, values: &[bool], node: usize) -> Rc<Tree> {
    let here = &formula.variables.at[node];
    let of = |map: &std::collections::BTreeMap<usize, i32>| {
        map.iter().find(|(_, variable)| is_true(values, **variable)).map(|(number, _)| *number)
    };
    if let Some(step) = of(&here.steps) {
        return Rc::new(Tree::Step(step));
    }
    let job = of(&here.jobs).expect("a model has a task at a node that is read");
    let method = of(&here.methods).expect("a model has a method at a node with a job");
    let body: &Vec<Task> = &formula.table.methods[method].body;
    let children = &formula.nodes[node].children[..body.len()];
    Rc::new(Tree::Job { job, method, below: children.iter().map(|child| tree_at(formula, values, *child)).collect() })
}
