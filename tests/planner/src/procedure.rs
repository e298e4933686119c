//! Procedure trees: their height, their steps, what doing them leads to, and their listing.

use crate::table::{Facts, Table};
use std::rc::Rc;

#[derive(Debug, Clone, PartialEq, Eq, PartialOrd, Ord)]
pub enum Tree {
    Step(usize),
    Job { job: usize, method: usize, below: Vec<Rc<Tree>> },
}

impl Tree {
    pub fn height(&self) -> usize {
        match self {
            Tree::Step(_) => 0,
            Tree::Job { below, .. } => 1 + below.iter().map(|tree| tree.height()).max().unwrap_or(0),
        }
    }

    /// The steps from left to right.
    pub fn steps(&self) -> Vec<usize> {
        match self {
            Tree::Step(step) => vec![*step],
            Tree::Job { below, .. } => below.iter().flat_map(|tree| tree.steps()).collect(),
        }
    }
}

/// The facts after the steps are done in order, or the place of the first that cannot be done.
pub fn simulate(table: &Table, steps: &[usize]) -> Result<Facts, usize> {
    let mut facts = table.start.clone();
    for (place, step) in steps.iter().enumerate() {
        let step = &table.steps[*step];
        if !step.can_be_done(&facts) {
            return Err(place);
        }
        facts = step.done(&facts);
    }
    Ok(facts)
}

pub fn listing(table: &Table, tree: &Tree) -> String {
    let mut text = String::new();
    list(table, tree, 0, &mut 0, &mut text);
    text
}

fn list(table: &Table, tree: &Tree, depth: usize, done: &mut usize, text: &mut String) {
    match tree {
        Tree::Step(step) => {
            *done += 1;
            *text += &format!("S\t{done}\t{}\n", table.steps[*step].name);
        }
        Tree::Job { job, method, below } => {
            *text += &format!("J\t{depth}\t{}\t{method}\n", table.jobs[*job]);
            for tree in below {
                list(table, tree, depth + 1, done, text);
            }
        }
    }
}

#[cfg(test)]
mod tests {
    use super::*;
    use crate::files::{ten_marked, EXAMPLE, EXAMPLE_LISTING};
    use crate::reader::read;

    #[test]
    fn the_example_listed() {
        let table = read(EXAMPLE.as_bytes()).unwrap();
        let tree = Tree::Job { job: 0, method: 0, below: vec![Rc::new(Tree::Step(0))] };
        assert_eq!(listing(&table, &tree), EXAMPLE_LISTING);
        assert_eq!(tree.height(), 1);
        assert_eq!(simulate(&table, &tree.steps()), Ok(Facts::from([0])));
    }

    #[test]
    fn a_fact_in_both_lists_is_true() {
        let table = read(ten_marked()[9].file.as_bytes()).unwrap();
        assert_eq!(simulate(&table, &[0]), Ok(Facts::from([0])));
    }
}
