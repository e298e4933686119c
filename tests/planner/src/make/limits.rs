//! Tables at every limit, and one past it.

use super::draft::{new_names, Draft, DraftStep};
use super::tables::small;
use crate::formula::formula;
use crate::places::places;
use crate::random::Random;
use crate::reader::read;
use std::collections::BTreeMap;

pub type Maker = fn(&mut Random) -> Vec<u8>;

/// Each limit's name, a table at it, and one past it with the question that turns it down.
pub struct Limit {
    pub name: &'static str,
    pub at: Maker,
    pub past: Maker,
    pub question: u32,
}

pub static LIMITS: [Limit; 10] = [
    Limit { name: "facts", at: |random| facts(random, 64), past: |random| facts(random, 65), question: 5 },
    Limit { name: "steps", at: |random| steps(random, 64), past: |random| steps(random, 65), question: 5 },
    Limit { name: "jobs", at: |random| jobs(random, 64), past: |random| jobs(random, 65), question: 5 },
    Limit { name: "methods", at: |random| methods(random, 128), past: |random| methods(random, 129), question: 5 },
    Limit { name: "body", at: |random| body(random, 8), past: |random| body(random, 9), question: 5 },
    Limit { name: "all counts at once", at: |random| wide(random, 64), past: |random| wide(random, 65), question: 5 },
    Limit { name: "depth", at: |random| depth(random, 8), past: |random| depth(random, 9), question: 3 },
    Limit { name: "nodes", at: |random| nodes(random, 1_024), past: |random| nodes(random, 1_025), question: 8 },
    Limit { name: "variables", at: |random| variables(random, 8_191), past: |random| variables(random, 8_192), question: 9 },
    Limit { name: "bytes", at: |random| bytes(random, 65_536), past: |random| bytes(random, 65_537), question: 2 },
];

/// A small table with a method that ends its root job, so that nothing but what is added makes it large.
fn base(random: &mut Random) -> Draft {
    let mut draft = small(random);
    draft.depth = "1".to_string();
    draft.methods.truncate(3);
    draft
}

fn taken(draft: &Draft) -> Vec<String> {
    let mut names = draft.task_names();
    names.extend(draft.facts.iter().cloned());
    names
}

fn facts(random: &mut Random, count: usize) -> Vec<u8> {
    let mut draft = base(random);
    let more = new_names(random, count - draft.facts.len(), 2, &mut taken(&draft));
    draft.facts.extend(more);
    for step in &mut draft.steps {
        step.sets = random.some(&draft.facts, 50);
        step.clears = random.some(&draft.facts, 50);
    }
    draft.start = random.some(&draft.facts, 50);
    draft.file()
}

fn steps(random: &mut Random, count: usize) -> Vec<u8> {
    let mut draft = base(random);
    let more = new_names(random, count - draft.steps.len(), 2, &mut taken(&draft));
    let facts = draft.facts.clone();
    draft.steps.extend(more.into_iter().map(|name| DraftStep { name, needs: Vec::new(), sets: facts.clone(), clears: Vec::new() }));
    let body: Vec<String> = (0..4).map(|_| random.pick(&draft.step_names()).clone()).collect();
    draft.methods.push((draft.root.clone(), body));
    let last = draft.steps.last().expect("there are steps").name.clone();
    draft.methods.push((draft.root.clone(), vec![last]));
    draft.file()
}

fn jobs(random: &mut Random, count: usize) -> Vec<u8> {
    let mut draft = base(random);
    let more = new_names(random, count - draft.jobs.len(), 2, &mut taken(&draft));
    draft.jobs.extend(more);
    draft.root = draft.jobs.last().expect("there are jobs").clone();
    draft.depth = "2".to_string();
    for _ in 0..40 {
        let body = vec![random.pick(&draft.jobs).clone()];
        draft.methods.push((random.pick(&draft.jobs).clone(), body));
    }
    draft.methods.push((draft.root.clone(), Vec::new()));
    draft.file()
}

fn methods(random: &mut Random, count: usize) -> Vec<u8> {
    let mut draft = base(random);
    while draft.methods.len() < count {
        let tasks = draft.task_names();
        let body = (0..random.below(4)).map(|_| random.pick(&tasks).clone()).collect();
        draft.methods.push((random.pick(&draft.jobs).clone(), body));
    }
    random.shuffle(&mut draft.methods);
    draft.file()
}

fn body(random: &mut Random, count: usize) -> Vec<u8> {
    let mut draft = base(random);
    let tasks = draft.task_names();
    let body = (0..count).map(|_| random.pick(&tasks).clone()).collect();
    draft.methods.push((draft.root.clone(), body));
    draft.file()
}

/// As many facts, steps, jobs and methods as there may be, most of them at one node: the longest clauses and the most pairs.
fn wide(random: &mut Random, count: usize) -> Vec<u8> {
    loop {
        let mut draft = all_counts(random, count);
        for number in 0..128 {
            let job = if number < 100 { draft.root.clone() } else { random.pick(&draft.jobs).clone() };
            let mut body = vec![if number < 64 { draft.steps[number].name.clone() } else { draft.jobs[number - 64].clone() }];
            body.extend((0..random.below(3)).map(|_| random.pick(&draft.steps).name.clone()));
            draft.methods.push((job, body));
        }
        random.shuffle(&mut draft.methods);
        if count > 64 || formula(&draft.file()).is_ok() {
            return draft.file();
        }
    }
}

fn all_counts(random: &mut Random, jobs: usize) -> Draft {
    let mut names = Vec::new();
    let facts = new_names(random, 64, 1, &mut names);
    let steps = new_names(random, 64, 1, &mut names);
    let jobs = new_names(random, jobs, 1, &mut names);
    let mut list = |percent| random.some(&facts, percent);
    let steps = steps.into_iter().map(|name| DraftStep { name, needs: list(2), sets: list(30), clears: list(30) }).collect();
    let start = random.some(&facts, 50);
    let root = random.pick(&jobs).clone();
    Draft { facts, steps, jobs, methods: Vec::new(), start, root, depth: random.between(1, 3).to_string() }
}

/// A chain of jobs as deep as the depth, each with another way that ends it.
fn depth(random: &mut Random, count: usize) -> Vec<u8> {
    let mut names = Vec::new();
    let jobs = new_names(random, 8, 1, &mut names);
    let fact = new_names(random, 1, 1, &mut names);
    let step = new_names(random, 1, 1, &mut names).remove(0);
    let mut draft = Draft { facts: fact.clone(), jobs, depth: count.to_string(), ..Draft::default() };
    draft.steps = vec![DraftStep { name: step.clone(), needs: Vec::new(), sets: fact, clears: Vec::new() }];
    for place in 0..8 {
        let below = draft.jobs.get(place + 1).unwrap_or(&step).clone();
        draft.methods.push((draft.jobs[place].clone(), vec![below]));
        if random.chance(30) {
            draft.methods.push((draft.jobs[place].clone(), vec![step.clone(), step.clone()]));
        }
    }
    draft.root = draft.jobs[0].clone();
    draft.file()
}

// Exactly so many nodes

/// Jobs by the number of nodes below and with them. A job's body parts the nodes below it among at most eight names, and a part of one
/// node is a step.
struct Parts<'a> {
    random: &'a mut Random,
    draft: Draft,
    jobs: BTreeMap<usize, String>,
}

impl Parts<'_> {
    fn task(&mut self, nodes: usize) -> String {
        if nodes == 1 {
            return self.random.pick(&self.draft.step_names()).clone();
        }
        if let Some(job) = self.jobs.get(&nodes) {
            return job.clone();
        }
        let job = format!("job-{nodes}");
        self.draft.jobs.push(job.clone());
        self.jobs.insert(nodes, job.clone());
        let body = self.parted(nodes - 1).into_iter().map(|part| self.task(part)).collect();
        self.draft.methods.push((job.clone(), body));
        job
    }

    fn parted(&mut self, nodes: usize) -> Vec<usize> {
        let count = if nodes > 64 { 8 } else { self.random.between(1, nodes.min(8)) };
        let mut parts: Vec<usize> = (0..count).map(|place| nodes / count + usize::from(place < nodes % count)).collect();
        self.random.shuffle(&mut parts);
        parts
    }
}

fn with_nodes(random: &mut Random, nodes: usize, facts: usize) -> Draft {
    let mut draft = Draft { facts: (0..facts).map(|number| format!("fact-{number}")).collect(), ..Draft::default() };
    for number in 0..random.between(1, 6) {
        let lists: Vec<Vec<String>> = (0..2).map(|_| random.some(&draft.facts, 30)).collect();
        draft.steps.push(DraftStep { name: format!("step-{number}"), needs: Vec::new(), sets: lists[0].clone(), clears: lists[1].clone() });
    }
    let mut parts = Parts { random, draft, jobs: BTreeMap::new() };
    let root = parts.task(nodes);
    let mut draft = parts.draft;
    draft.root = root;
    draft.depth = "8".to_string();
    draft
}

fn nodes(random: &mut Random, wanted: usize) -> Vec<u8> {
    loop {
        let facts = random.below(6);
        let file = with_nodes(random, wanted, facts).file();
        let counted = read(&file).map(|table| places(&table).map_or(wanted > 1_024, |nodes| nodes.len() == wanted));
        if counted == Ok(true) {
            return file;
        }
    }
}

// Exactly so many variables

/// A table of fewer variables, filled up with methods of the root job whose body is empty: each is one variable more, since the root job
/// stands at the root alone.
fn variables(random: &mut Random, wanted: usize) -> Vec<u8> {
    loop {
        let nodes = random.between(20, 400);
        let facts = random.between(10, 64);
        let mut draft = with_nodes(random, nodes, facts);
        let Ok(formula) = formula(&draft.file()) else { continue };
        let missing = wanted.checked_sub(formula.variables.count as usize);
        if let Some(missing) = missing.filter(|missing| missing + draft.methods.len() <= 128) {
            let root = draft.root.clone();
            draft.methods.extend((0..missing).map(|_| (root.clone(), Vec::new())));
            return draft.file();
        }
    }
}

// Exactly so many bytes

/// Long lists of facts, then facts one by one, then two jobs whose names fill up the rest.
fn bytes(random: &mut Random, wanted: usize) -> Vec<u8> {
    let mut names = Vec::new();
    let facts = new_names(random, 64, 12, &mut names);
    let steps = new_names(random, 64, 12, &mut names);
    let jobs = new_names(random, 1, 12, &mut names);
    let empty = |name| DraftStep { name, needs: Vec::new(), sets: Vec::new(), clears: Vec::new() };
    let mut draft = Draft { facts, steps: steps.into_iter().map(empty).collect(), jobs, depth: "1".to_string(), ..Draft::default() };
    draft.root = draft.jobs[0].clone();
    let body = (0..8).map(|_| random.pick(&draft.step_names()).clone()).collect();
    draft.methods.push((draft.root.clone(), body));
    fill(random, &mut draft, wanted);
    draft.file()
}

fn fill(random: &mut Random, draft: &mut Draft, wanted: usize) {
    let missing = |draft: &Draft| wanted - draft.file().len();
    let mut steps: Vec<usize> = (0..64).collect();
    random.shuffle(&mut steps);
    for step in steps {
        for list in 0..2 {
            if missing(draft) > 2_000 {
                let facts = draft.facts.clone();
                let step = &mut draft.steps[step];
                *[&mut step.sets, &mut step.clears][list] = facts;
            }
        }
    }
    draft.start = draft.facts.clone();
    while missing(draft) > 30 {
        draft.methods.push((draft.root.clone(), Vec::new()));
    }
    fill_with_jobs(draft, missing(draft));
}

/// Two job lines of so many bytes together: 14 to 30.
fn fill_with_jobs(draft: &mut Draft, bytes: usize) {
    let first = bytes / 2 - 3;
    draft.jobs.push("y".repeat(first));
    draft.jobs.push("z".repeat(bytes - 6 - first));
}

#[cfg(test)]
mod tests {
    use super::*;

    #[test]
    fn each_limit_and_one_past_it() {
        let mut random = Random::new(1);
        for limit in &LIMITS {
            for _ in 0..5 {
                let at = formula(&(limit.at)(&mut random)).map(|_| ());
                assert_eq!(at, Ok(()), "{}", limit.name);
                let past = formula(&(limit.past)(&mut random)).map(|_| ());
                assert_eq!(past.map_err(|refused| refused.0), Err(limit.question), "{}", limit.name);
            }
        }
    }

    #[test]
    fn exact_counts() {
        let mut random = Random::new(2);
        assert_eq!(formula(&nodes(&mut random, 1_024)).unwrap().nodes.len(), 1_024);
        assert_eq!(formula(&variables(&mut random, 8_191)).unwrap().variables.count, 8_191);
        assert_eq!(bytes(&mut random, 65_536).len(), 65_536);
    }
}
