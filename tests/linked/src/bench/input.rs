//! The tables and answers that are measured: stored ones, those of the workshops, and made ones.

use crate::direct;
use planner::calls::{TREE_RECORDS, VALUES};
use planner::dimacs::{answer, Cnf};
use planner::files::{EXAMPLE, EXAMPLE_ANSWER};
use planner::formula::formula;
use planner::make::draft::{Draft, DraftStep};
use planner::places::Record;
use planner::search::models;
use std::path::Path;

pub struct Input {
    pub name: String,
    pub file: Vec<u8>,
    pub answer: Vec<u8>,
    /// Its records, among as many as a call wants; nothing of a table that is turned down.
    pub tree: Vec<Record>,
    /// The values that the answer gives, among as many as a call wants.
    pub values: Vec<u8>,
    /// The counts of nodes, variables and clauses.
    pub counts: [usize; 3],
}

impl Input {
    pub fn new(name: &str, file: Vec<u8>, answer: Vec<u8>) -> Input {
        let mut tree = vec![Record::of([0; Record::FIELDS]); TREE_RECORDS];
        let mut values = vec![0; VALUES];
        let _ = direct::build(&file, &mut tree);
        let _ = direct::take_answer(&file, &tree, &answer, &mut values);
        let counts = direct::check(&file).unwrap_or_default();
        Input { name: name.to_string(), file, answer, tree, values, counts }
    }

    /// A table of the stored cases.
    pub fn stored(data: &Path, name: &str) -> Input {
        Input::new(name, read(&data.join(format!("{name}.tab"))), Vec::new())
    }

    /// The same with a stored answer.
    pub fn answered(data: &Path, name: &str, answer: &str) -> Input {
        Input::new(name, read(&data.join(format!("{name}.tab"))), read(&data.join(answer)))
    }

    /// A table that has a procedure, with the first answer that a search finds.
    pub fn solved(name: &str, file: Vec<u8>) -> Input {
        let formula = formula(&file).expect("a table that is solved is accepted");
        let cnf = Cnf { variables: formula.variables.count as usize, clauses: formula.clauses };
        let found = models(&cnf, 1, 100_000).models;
        let answer = answer(found.first().expect("a table that is solved has a procedure"));
        Input::new(name, file, answer.into_bytes())
    }

    /// Document 01's.
    pub fn example() -> Input {
        Input::new("example", EXAMPLE.as_bytes().to_vec(), EXAMPLE_ANSWER.as_bytes().to_vec())
    }
}

pub fn read(path: &Path) -> Vec<u8> {
    std::fs::read(path).unwrap_or_else(|error| panic!("{}: {error}", path.display()))
}

/// How large a made table is.
#[derive(Clone, Copy)]
pub struct Size {
    /// Names in the body of each method: a node that is not a slot has so many children.
    pub width: usize,
    /// How many steps a lowest place may hold.
    pub steps: usize,
    pub facts: usize,
    pub depth: usize,
}

fn names(kind: &str, count: usize) -> Vec<String> {
    (0..count).map(|number| format!("{kind}{number}")).collect()
}

/// A job for each depth, each of them in a row of the next one, the last of any one step: nodes grow with the width and the depth, clauses over
/// steps with the steps, those over facts with the facts.
fn draft(size: Size) -> Draft {
    let facts = names("f", size.facts);
    let (set, cleared) = facts.split_at(size.facts / 2);
    let step = |name: String| DraftStep { name, needs: Vec::new(), sets: set.to_vec(), clears: cleared.to_vec() };
    let steps: Vec<DraftStep> = names("s", size.steps).into_iter().map(step).collect();
    let jobs = names("job", size.depth);
    let rows = jobs.windows(2).map(|pair| (pair[0].clone(), vec![pair[1].clone(); size.width]));
    let last = &jobs[size.depth - 1];
    let ways = steps.iter().map(|step| (last.clone(), vec![step.name.clone(); size.width]));
    let methods = rows.chain(ways).collect();
    let root = jobs[0].clone();
    Draft { facts, steps, jobs, methods, start: Vec::new(), root, depth: size.depth.to_string() }
}

pub fn grown(size: Size) -> Input {
    Input::solved("grown", draft(size).file())
}

/// A table of 15 nodes and ten methods, behind which stand 118 methods of jobs that no place may hold.
pub fn unreached() -> Input {
    let mut table = draft(Size { width: 2, steps: 8, facts: 8, depth: 3 });
    let spare = names("spare", UNREACHED / 2);
    for (number, job) in spare.iter().enumerate() {
        let next = spare[(number + 1) % spare.len()].clone();
        let step = table.steps[number % table.steps.len()].name.clone();
        table.methods.push((job.clone(), vec![step.clone(), next, step.clone()]));
        table.methods.push((job.clone(), vec![step]));
    }
    table.jobs.extend(spare);
    Input::solved("unreached-118", table.file())
}

const UNREACHED: usize = 118;
