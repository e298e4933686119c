//! The table file: questions 2 to 7, each put to the whole file before the next.

use crate::table::{Facts, Method, Step, Table, Task};
use crate::{question, Outcome, Refused};
use std::collections::{BTreeSet, HashMap, HashSet};

pub const MOST_BYTES: usize = 65_536;

/// A formed line, its names not yet looked up.
#[derive(Debug)]
enum Line {
    Fact(String),
    Step { name: String, lists: [Vec<String>; 3] },
    Job(String),
    Method { job: String, body: Vec<String> },
    Start(Vec<String>),
    Root { job: String, depth: usize },
}

pub fn read(file: &[u8]) -> Outcome<Table> {
    question(2, file.len() <= MOST_BYTES && file.last() == Some(&b'\n'))?;
    let lines = formed_lines(file).ok_or(Refused(3))?;
    question(4, order_is_kept(&lines))?;
    question(5, within_limits(&lines))?;
    question(6, declared_names_are_new(&lines))?;
    look_up(&lines).ok_or(Refused(7))
}

// Question 3

fn formed_lines(file: &[u8]) -> Option<Vec<Line>> {
    let text = std::str::from_utf8(file).ok()?;
    let lines = text.strip_suffix('\n')?;
    lines.split('\n').map(formed_line).collect()
}

fn formed_line(line: &str) -> Option<Line> {
    let fields: Vec<&str> = line.split('\t').collect();
    match fields[..] {
        ["F", fact] => Some(Line::Fact(name(fact)?)),
        ["S", step, needs, sets, clears] => Some(Line::Step { name: name(step)?, lists: [list(needs)?, list(sets)?, list(clears)?] }),
        ["T", job] => Some(Line::Job(name(job)?)),
        ["M", job, body] => Some(Line::Method { job: name(job)?, body: list(body)? }),
        ["I", facts] => Some(Line::Start(list(facts)?)),
        ["R", job, depth] => Some(Line::Root { job: name(job)?, depth: depth_digit(depth)? }),
        _ => None,
    }
}

fn name(field: &str) -> Option<String> {
    let formed = (1..=12).contains(&field.len())
        && field.starts_with(|c: char| c.is_ascii_lowercase())
        && field.chars().all(|c| c.is_ascii_lowercase() || c.is_ascii_digit() || c == '-');
    formed.then(|| field.to_string())
}

fn list(field: &str) -> Option<Vec<String>> {
    if field == "-" {
        return Some(Vec::new());
    }
    field.split(',').map(name).collect()
}

fn depth_digit(field: &str) -> Option<usize> {
    ["1", "2", "3", "4", "5", "6", "7", "8"].iter().position(|digit| *digit == field).map(|at| at + 1)
}

// Question 4

/// "Order: all F, all S, all T, all M, one I, one R last. F, S, T and M may be missing."
fn order_is_kept(lines: &[Line]) -> bool {
    let kinds: Vec<usize> = lines.iter().map(kind).collect();
    let often = |wanted| kinds.iter().filter(|kind| **kind == wanted).count();
    kinds.windows(2).all(|pair| pair[0] <= pair[1]) && often(4) == 1 && often(5) == 1
}

fn kind(line: &Line) -> usize {
    match line {
        Line::Fact(_) => 0,
        Line::Step { .. } => 1,
        Line::Job(_) => 2,
        Line::Method { .. } => 3,
        Line::Start(_) => 4,
        Line::Root { .. } => 5,
    }
}

// Question 5

/// "At most 64 facts, 64 steps, 64 jobs, 128 methods, 8 names in a body."
fn within_limits(lines: &[Line]) -> bool {
    let mut often = [0; 6];
    for line in lines {
        often[kind(line)] += 1;
    }
    let bodies = lines.iter().all(|line| !matches!(line, Line::Method { body, .. } if body.len() > 8));
    often[0] <= 64 && often[1] <= 64 && often[2] <= 64 && often[3] <= 128 && bodies
}

// Question 6

fn declared_names_are_new(lines: &[Line]) -> bool {
    let mut seen = HashSet::new();
    lines.iter().filter_map(declared).all(|name| seen.insert(name))
}

fn declared(line: &Line) -> Option<&str> {
    match line {
        Line::Fact(name) | Line::Step { name, .. } | Line::Job(name) => Some(name),
        _ => None,
    }
}

// Question 7

type Numbers = HashMap<String, usize>;

fn numbered(lines: &[Line], wanted: usize) -> Numbers {
    let names = lines.iter().filter(|line| kind(line) == wanted).filter_map(declared);
    names.enumerate().map(|(number, name)| (name.to_string(), number)).collect()
}

struct Names {
    facts: Numbers,
    steps: Numbers,
    jobs: Numbers,
}

impl Names {
    fn of(lines: &[Line]) -> Names {
        Names { facts: numbered(lines, 0), steps: numbered(lines, 1), jobs: numbered(lines, 2) }
    }

    fn job(&self, name: &str) -> Option<usize> {
        self.jobs.get(name).copied()
    }

    fn task(&self, name: &str) -> Option<Task> {
        let step = self.steps.get(name).map(|number| Task::Step(*number));
        step.or_else(|| self.job(name).map(Task::Job))
    }

    /// A list of facts: every name a fact, and no fact twice.
    fn fact_list(&self, names: &[String]) -> Option<Facts> {
        let facts: Facts = names.iter().map(|name| self.facts.get(name).copied()).collect::<Option<BTreeSet<usize>>>()?;
        (facts.len() == names.len()).then_some(facts)
    }
}

fn look_up(lines: &[Line]) -> Option<Table> {
    let names = Names::of(lines);
    let mut table =
        Table { facts: Vec::new(), steps: Vec::new(), jobs: Vec::new(), methods: Vec::new(), start: Facts::new(), root: 0, depth: 0 };
    for line in lines {
        take_up(&mut table, &names, line)?;
    }
    Some(table)
}

fn take_up(table: &mut Table, names: &Names, line: &Line) -> Option<()> {
    match line {
        Line::Fact(name) => table.facts.push(name.clone()),
        Line::Job(name) => table.jobs.push(name.clone()),
        Line::Step { name, lists: [needs, sets, clears] } => table.steps.push(Step {
            name: name.clone(),
            needs: names.fact_list(needs)?,
            sets: names.fact_list(sets)?,
            clears: names.fact_list(clears)?,
        }),
        Line::Method { job, body } => table
            .methods
            .push(Method { job: names.job(job)?, body: body.iter().map(|name| names.task(name)).collect::<Option<Vec<Task>>>()? }),
        Line::Start(facts) => table.start = names.fact_list(facts)?,
        Line::Root { job, depth } => {
            table.root = names.job(job)?;
            table.depth = *depth;
        }
    }
    Some(())
}

#[cfg(test)]
mod tests {
    use super::*;
    use crate::files::EXAMPLE;

    fn refusal(file: &str) -> u32 {
        read(file.as_bytes()).map_or_else(|refused| refused.0, |_| 0)
    }

    fn changed(from: &str, to: &str) -> u32 {
        assert!(EXAMPLE.contains(from));
        refusal(&EXAMPLE.replacen(from, to, 1))
    }

    #[test]
    fn the_example_is_read() {
        let table = read(EXAMPLE.as_bytes()).unwrap();
        assert_eq!(table.facts, ["open"]);
        assert_eq!(table.steps[0].sets, Facts::from([0]));
        assert_eq!(table.methods[0].body, [Task::Step(0)]);
        assert_eq!((table.root, table.depth), (0, 1));
    }

    #[test]
    fn question_2() {
        assert_eq!(refusal(""), 2);
        assert_eq!(refusal(EXAMPLE.trim_end()), 2);
        assert_eq!(refusal(&"x\n".repeat(32_769)), 2);
        assert_eq!(refusal(&"x\n".repeat(32_768)), 3);
    }

    #[test]
    fn question_3() {
        for (from, to) in [("open", "Open"), ("serve\t1", "serve\t0"), ("serve\t1", "serve\t9"), ("\tlift\n", "\tlift,\n")] {
            assert_eq!(changed(from, to), 3, "{to}");
        }
        assert_eq!(changed("serve\t1", "serve\t8"), 0);
        assert_eq!(refusal(&format!("{EXAMPLE}\n")), 3);
    }

    #[test]
    fn questions_4_to_7() {
        assert_eq!(changed("I\t-\n", ""), 4);
        assert_eq!(changed("I\t-\n", "I\t-\nI\t-\n"), 4);
        assert_eq!(changed("serve\tlift", "serve\ta,b,c,d,e,f,g,h,i"), 5);
        assert_eq!(changed("serve\tlift", "serve\tlift,lift,lift,lift,lift,lift,lift,lift"), 0);
        assert_eq!(changed("S\tlift", "S\topen"), 6);
        assert_eq!(changed("I\t-", "I\topen,open"), 7);
        assert_eq!(changed("R\tserve", "R\tlift"), 7);
        assert_eq!(changed("serve\tlift", "serve\topen"), 7);
    }
}
