//! Random tables that are formed and whose names are declared. Most are accepted; some have too large a tree or formula.

use super::draft::{new_names, Draft, DraftStep};
use crate::random::Random;

/// How large a table may become, and how often a step needs, sets and clears a fact.
pub struct Size {
    pub facts: usize,
    pub steps: usize,
    pub jobs: usize,
    pub methods: usize,
    pub body: usize,
    pub depth: usize,
    pub shortest_name: usize,
}

pub const SMALL: Size = Size { facts: 3, steps: 4, jobs: 3, methods: 6, body: 3, depth: 3, shortest_name: 1 };
pub const MIDDLE: Size = Size { facts: 10, steps: 12, jobs: 8, methods: 16, body: 5, depth: 5, shortest_name: 1 };
pub const LARGE: Size = Size { facts: 64, steps: 64, jobs: 64, methods: 128, body: 8, depth: 8, shortest_name: 3 };

pub fn small(random: &mut Random) -> Draft {
    of_size(random, &SMALL)
}

pub fn middle(random: &mut Random) -> Draft {
    of_size(random, &MIDDLE)
}

pub fn large(random: &mut Random) -> Draft {
    of_size(random, &LARGE)
}

pub fn of_size(random: &mut Random, size: &Size) -> Draft {
    let mut taken = Vec::new();
    let shortest = size.shortest_name;
    let count = random.between(0, size.facts);
    let facts = new_names(random, count, shortest, &mut taken);
    let count = random.between(0, size.steps);
    let names = new_names(random, count, shortest, &mut taken);
    let steps = names.into_iter().map(|name| step(random, name, &facts)).collect();
    let count = random.between(1, size.jobs);
    let jobs = new_names(random, count, shortest, &mut taken);
    let mut draft = Draft { facts, steps, jobs, ..Draft::default() };
    draft.start = random.some(&draft.facts, 40);
    random.shuffle(&mut draft.start);
    let count = random.between(0, size.methods);
    draft.methods = (0..count).map(|_| method(random, &draft, size.body)).collect();
    draft.root = random.pick(&draft.jobs).clone();
    draft.depth = random.between(1, size.depth).to_string();
    draft
}

fn step(random: &mut Random, name: String, facts: &[String]) -> DraftStep {
    let mut list = |percent| {
        let mut facts = random.some(facts, percent);
        random.shuffle(&mut facts);
        facts
    };
    DraftStep { name, needs: list(15), sets: list(30), clears: list(20) }
}

fn method(random: &mut Random, draft: &Draft, longest: usize) -> (String, Vec<String>) {
    let job = random.pick(&draft.jobs).clone();
    let length = random.between(0, longest);
    (job, (0..length).map(|_| task(random, draft)).collect())
}

/// More often a step than a job, so that many tables have a procedure.
fn task(random: &mut Random, draft: &Draft) -> String {
    if !draft.steps.is_empty() && random.chance(65) {
        random.pick(&draft.steps).name.clone()
    } else {
        random.pick(&draft.jobs).clone()
    }
}
