//! A table as it is put together, before it becomes a file.

use crate::random::Random;

#[derive(Debug, Clone, Default)]
pub struct Draft {
    pub facts: Vec<String>,
    pub steps: Vec<DraftStep>,
    pub jobs: Vec<String>,
    pub methods: Vec<(String, Vec<String>)>,
    pub start: Vec<String>,
    pub root: String,
    pub depth: String,
}

#[derive(Debug, Clone)]
pub struct DraftStep {
    pub name: String,
    pub needs: Vec<String>,
    pub sets: Vec<String>,
    pub clears: Vec<String>,
}

pub fn list(names: &[String]) -> String {
    if names.is_empty() {
        "-".to_string()
    } else {
        names.join(",")
    }
}

impl Draft {
    /// The lines without their LF.
    pub fn lines(&self) -> Vec<String> {
        let mut lines: Vec<String> = self.facts.iter().map(|name| format!("F\t{name}")).collect();
        lines.extend(self.steps.iter().map(DraftStep::line));
        lines.extend(self.jobs.iter().map(|name| format!("T\t{name}")));
        lines.extend(self.methods.iter().map(|(job, body)| format!("M\t{job}\t{}", list(body))));
        lines.push(format!("I\t{}", list(&self.start)));
        lines.push(format!("R\t{}\t{}", self.root, self.depth));
        lines
    }

    pub fn file(&self) -> Vec<u8> {
        file(&self.lines())
    }

    pub fn step_names(&self) -> Vec<String> {
        self.steps.iter().map(|step| step.name.clone()).collect()
    }

    pub fn task_names(&self) -> Vec<String> {
        let mut names = self.step_names();
        names.extend(self.jobs.iter().cloned());
        names
    }
}

impl DraftStep {
    fn line(&self) -> String {
        format!("S\t{}\t{}\t{}\t{}", self.name, list(&self.needs), list(&self.sets), list(&self.clears))
    }
}

pub fn file(lines: &[String]) -> Vec<u8> {
    lines.iter().flat_map(|line| line.bytes().chain([b'\n'])).collect()
}

/// A name of that length.
pub fn name(random: &mut Random, length: usize) -> String {
    let letters = b"abcdefghijklmnopqrstuvwxyz0123456789-";
    let mut name = String::new();
    name.push(letters[random.below(26)] as char);
    while name.len() < length {
        name.push(*random.pick(letters) as char);
    }
    name
}

/// So many names, no two the same; those of `taken` are not among them.
pub fn new_names(random: &mut Random, count: usize, shortest: usize, taken: &mut Vec<String>) -> Vec<String> {
    let mut names = Vec::new();
    while names.len() < count {
        let length = random.between(shortest, 12);
        let name = name(random, length);
        if !taken.contains(&name) {
            taken.push(name.clone());
            names.push(name);
        }
    }
    names
}
