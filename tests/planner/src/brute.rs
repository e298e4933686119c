//! All procedures of a table, by brute force and from the table alone: no places, no variables, no clauses.

use crate::procedure::{simulate, Tree};
use crate::table::{Table, Task};
use std::rc::Rc;

type Trees = Vec<Rc<Tree>>;

/// Every tree that starts at the root job, is no higher than the depth, and whose steps can be done left to right from the initial
/// facts; nothing if more than `most` trees would have to be looked at for one task.
pub fn procedures(table: &Table, most: usize) -> Option<Trees> {
    let trees = trees(table, Task::Job(table.root), table.depth, most)?;
    Some(trees.into_iter().filter(|tree| simulate(table, &tree.steps()).is_ok()).collect())
}

/// Every tree that starts at the task and has at most the height.
fn trees(table: &Table, task: Task, height: usize, most: usize) -> Option<Trees> {
    match task {
        Task::Step(step) => Some(vec![Rc::new(Tree::Step(step))]),
        Task::Job(_) if height == 0 => Some(Vec::new()),
        Task::Job(job) => {
            let mut all = Vec::new();
            for method in table.methods_of(job) {
                let rows = rows(table, &table.methods[method].body, height - 1, most)?;
                all.extend(rows.into_iter().map(|below| Rc::new(Tree::Job { job, method, below })));
                if all.len() > most {
                    return None;
                }
            }
            Some(all)
        }
    }
}

/// Every row of trees, one for each name of the body.
fn rows(table: &Table, body: &[Task], height: usize, most: usize) -> Option<Vec<Trees>> {
    let mut rows = vec![Vec::new()];
    for task in body {
        if rows.is_empty() {
            break;
        }
        let choices = trees(table, *task, height, most)?;
        if rows.len() * choices.len() > most {
            return None;
        }
        rows = rows.iter().flat_map(|row| choices.iter().map(|choice| longer(row, choice))).collect();
    }
    Some(rows)
}

fn longer(row: &Trees, choice: &Rc<Tree>) -> Trees {
    let mut longer = row.clone();
    longer.push(choice.clone());
    longer
}

#[cfg(test)]
mod tests {
    use super::*;
    use crate::files::ten_marked;
    use crate::reader::read;

    #[test]
    fn the_ten_marked_tables() {
        for marked in ten_marked() {
            let table = read(marked.file.as_bytes()).unwrap();
            assert_eq!(procedures(&table, 100).unwrap().len(), marked.models, "{}", marked.name);
        }
    }
}
