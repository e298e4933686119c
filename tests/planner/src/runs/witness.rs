//! A listing held to the table itself: its lines are read back as a procedure tree by the methods' bodies, and its steps are done one by one
//! from the initial facts. Nothing of places, variables or clauses is used.

use crate::procedure::Tree;
use crate::table::{Table, Task};
use std::rc::Rc;

/// The steps done, or what is wrong.
pub fn check(table: &Table, listing: &str) -> Result<usize, String> {
    let mut lines = listing.lines();
    let mut steps = 0;
    let tree = read_back(table, &mut lines, Task::Job(table.root), 0, &mut steps)?;
    if let Some(line) = lines.next() {
        return Err(format!("a line too many: {line}"));
    }
    if tree.height() > table.depth {
        return Err(format!("height {} is more than the depth", tree.height()));
    }
    do_steps(table, &tree.steps())?;
    Ok(steps)
}

fn read_back(table: &Table, lines: &mut std::str::Lines, task: Task, depth: usize, steps: &mut usize) -> Result<Rc<Tree>, String> {
    let line = lines.next().ok_or("a line is missing")?;
    let fields: Vec<&str> = line.split('\t').collect();
    match (task, &fields[..]) {
        (Task::Step(step), ["S", place, name]) if *name == table.steps[step].name => {
            *steps += 1;
            wanted(*place == steps.to_string(), line)?;
            Ok(Rc::new(Tree::Step(step)))
        }
        (Task::Job(job), ["J", at, name, method]) if *name == table.jobs[job] => {
            wanted(*at == depth.to_string(), line)?;
            let method: usize = method.parse().map_err(|_| line.to_string())?;
            let found = table.methods.get(method).filter(|method| method.job == job).ok_or(line)?;
            let below = found.body.iter().map(|task| read_back(table, lines, *task, depth + 1, steps)).collect::<Result<_, _>>()?;
            Ok(Rc::new(Tree::Job { job, method, below }))
        }
        _ => Err(format!("not wanted here: {line}")),
    }
}

fn wanted(holds: bool, line: &str) -> Result<(), String> {
    if holds {
        Ok(())
    } else {
        Err(format!("wrong number: {line}"))
    }
}

fn do_steps(table: &Table, steps: &[usize]) -> Result<(), String> {
    let mut facts = vec![false; table.facts.len()];
    table.start.iter().for_each(|fact| facts[*fact] = true);
    for number in steps {
        let step = &table.steps[*number];
        if let Some(fact) = step.needs.iter().find(|fact| !facts[**fact]) {
            return Err(format!("{} needs {}", step.name, table.facts[*fact]));
        }
        step.clears.iter().for_each(|fact| facts[*fact] = false);
        step.sets.iter().for_each(|fact| facts[*fact] = true);
    }
    Ok(())
}

#[cfg(test)]
mod tests {
    use super::*;
    use crate::files::{ten_marked, EXAMPLE, EXAMPLE_LISTING};
    use crate::reader::read;

    #[test]
    fn the_example_and_wrong_listings() {
        let table = read(EXAMPLE.as_bytes()).unwrap();
        assert_eq!(check(&table, EXAMPLE_LISTING), Ok(1));
        for wrong in [
            "",
            "J\t0\tserve\t0\n",
            "J\t1\tserve\t0\nS\t1\tlift\n",
            "J\t0\tserve\t0\nS\t2\tlift\n",
            "J\t0\tserve\t1\nS\t1\tlift\n",
            "J\t0\tserve\t0\nS\t1\tlift\nS\t2\tlift\n",
        ] {
            assert!(check(&table, wrong).is_err(), "{wrong}");
        }
    }

    #[test]
    fn a_step_that_cannot_be_done() {
        let table = read(ten_marked()[7].file.as_bytes()).unwrap();
        assert_eq!(check(&table, EXAMPLE_LISTING), Err("lift needs open".to_string()));
    }
}
