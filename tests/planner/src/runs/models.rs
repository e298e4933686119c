//! Models and trees: for each of thousands of small tables, all models of the formula that the program `formula` wrote, each listed as the
//! program `procedure` lists it, against the trees that brute force finds in the table alone. They must match one to one.

use super::batch::Batch;
use super::kinds::Kind;
use super::programs::Programs;
use super::Tally;
use crate::brute::procedures;
use crate::dimacs::{answer, parse};
use crate::files::ten_marked;
use crate::make::tables::{of_size, small, Size};
use crate::procedure::listing;
use crate::random::Random;
use crate::reader::read;
use crate::search::models;

const MOST_TREES: usize = 400;

/// A little more of everything than small.
const BRANCHING: Size = Size { facts: 4, steps: 5, jobs: 4, methods: 9, body: 3, depth: 4, shortest_name: 1 };

pub fn compare(tally: &mut Tally, random: &mut Random, programs: &Programs, tables: usize) {
    let mut counts = Counts::default();
    for marked in ten_marked() {
        table(tally, &mut counts, programs, marked.file.as_bytes());
    }
    while counts.tables < tables {
        let draft = if random.chance(50) { small(random) } else { of_size(random, &BRANCHING) };
        table(tally, &mut counts, programs, &draft.file());
    }
    tally.print_given("models and trees");
    println!(
        "models and trees: {} tables, {} of them without a procedure, {} with more than one; {} models in all; {} tables passed over as too large",
        counts.tables, counts.none, counts.several, counts.models, counts.passed_over
    );
}

#[derive(Default)]
struct Counts {
    tables: usize,
    none: usize,
    several: usize,
    models: usize,
    passed_over: usize,
}

fn table(tally: &mut Tally, counts: &mut Counts, programs: &Programs, file: &[u8]) {
    let Some(mut wanted) = wanted_listings(file) else {
        counts.passed_over += 1;
        return;
    };
    let written = programs.write_formula(file);
    let Some(mut listed) = listings_of_models(tally, programs, file, &written) else {
        counts.passed_over += 1;
        return;
    };
    counts.tables += 1;
    counts.models += listed.len();
    counts.none += usize::from(listed.is_empty());
    counts.several += usize::from(listed.len() > 1);
    wanted.sort();
    listed.sort();
    let files = [("table.tab", file), ("wanted", &wanted.concat().into_bytes()[..]), ("listed", &listed.concat().into_bytes()[..])];
    tally.case("models and trees", 0, wanted == listed, &files);
}

/// The listing of every procedure, all different; nothing where there are too many, or the tree of places is too large.
fn wanted_listings(file: &[u8]) -> Option<Vec<String>> {
    let table = read(file).expect("the tables made here are formed");
    crate::formula::formula(file).ok()?;
    let trees = procedures(&table, MOST_TREES)?;
    Some(trees.iter().map(|tree| listing(&table, tree)).collect())
}

/// The listing of every model; nothing where the search gives up.
fn listings_of_models(tally: &mut Tally, programs: &Programs, file: &[u8], formula: &[u8]) -> Option<Vec<String>> {
    let text = String::from_utf8_lossy(formula);
    let Some(cnf) = parse(&text) else { return Some(vec!["no formula".to_string()]) };
    let found = models(&cnf, MOST_TREES + 1, 20_000);
    if found.spent {
        return None;
    }
    let mut batch = Batch::new(&programs.stored);
    let table = batch.file(file);
    for model in &found.models {
        let answer = batch.file(answer(model).as_bytes());
        batch.add(Kind::Procedure, &table, Some(&answer), &[]);
    }
    if found.models.is_empty() {
        return Some(Vec::new());
    }
    Some(listings(&String::from_utf8_lossy(&batch.run(tally))))
}

/// The listings, each behind the line of its case.
fn listings(output: &str) -> Vec<String> {
    let mut listings: Vec<String> = Vec::new();
    for line in output.lines() {
        if line.starts_with("procedure\t") {
            listings.push(String::new());
        } else if let Some(last) = listings.last_mut() {
            *last += &format!("{line}\n");
        }
    }
    listings
}
