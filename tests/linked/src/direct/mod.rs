//! A planner in Rust that is written for speed, as the baseline to measure against. It does what the seven calls do, the same questions in the
//! same order among them, and shares no code with the second planner but the form of an outcome and of a record.
//!
//! Sets are words. The table is read in one pass, sixteen bytes of a name at a time, and names are hashed as one number. What a node's children
//! may hold is kept by job, so that no visit goes through methods. Clauses are counted in closed form, skipped by nodes and rows, and written a
//! literal a store. Values are looked at by whole nodes and boundaries.

mod answer;
mod clauses;
mod counts;
mod listing;
mod model;
mod names;
mod numerals;
mod places;
mod programs;
mod table;
mod text;

pub use programs::{print_formula, print_procedure, FILE_ROOM};

use model::Model;
use places::Plan;
use planner::calls::{LISTING_BYTES, TEXT_BYTES, TREE_RECORDS, VALUES};
use planner::places::Record;
use planner::{question, Outcome};

/// Questions 2 to 9.
fn planned(file: &[u8]) -> Outcome<Plan<'_>> {
    Plan::of(table::read(file)?)
}

/// The counts of nodes, variables and clauses.
pub fn check(file: &[u8]) -> Outcome<[usize; 3]> {
    let plan = planned(file)?;
    Ok([plan.nodes.len(), plan.variables, counts::all(&plan)])
}

/// The node count.
pub fn build(file: &[u8], tree: &mut [Record]) -> Outcome<usize> {
    question(1, tree.len() >= TREE_RECORDS)?;
    let plan = planned(file)?;
    plan.write_records(tree);
    Ok(plan.nodes.len())
}

/// The bytes used and the next line.
pub fn write_text(file: &[u8], tree: &[Record], line: usize, text: &mut [u8]) -> Outcome<[usize; 2]> {
    question(1, tree.len() >= TREE_RECORDS && text.len() >= TEXT_BYTES)?;
    text::write(&planned(file)?.with_tree(tree)?, line, text)
}

/// The same with no tree lent.
pub fn write_formula(file: &[u8], line: usize, text: &mut [u8]) -> Outcome<[usize; 2]> {
    question(1, text.len() >= TEXT_BYTES)?;
    text::write(&planned(file)?, line, text)
}

/// How many values were written.
pub fn take_answer(file: &[u8], tree: &[Record], reply: &[u8], values: &mut [u8]) -> Outcome<usize> {
    question(1, tree.len() >= TREE_RECORDS && values.len() >= VALUES)?;
    let plan = planned(file)?.with_tree(tree)?;
    let (heard, _) = heard(&plan, reply)?;
    values[..heard.len()].copy_from_slice(&heard);
    Ok(heard.len())
}

/// The bytes used.
pub fn list_procedure(file: &[u8], tree: &[Record], values: &[u8], listing: &mut [u8]) -> Outcome<usize> {
    question(1, tree.len() >= TREE_RECORDS && values.len() >= VALUES && listing.len() >= LISTING_BYTES)?;
    let plan = planned(file)?.with_tree(tree)?;
    let own = &values[..plan.variables];
    // All of them, with no end before, so that many are looked at at once.
    question(14, own.iter().fold(0, |all, value| all | value) <= 1)?;
    Ok(listing::write(&plan, &Model::of(&plan, own)?, listing))
}

/// The bytes used; the values are an answer's, and neither they nor a tree are lent.
pub fn list_answer(file: &[u8], reply: &[u8], listing: &mut [u8]) -> Outcome<usize> {
    question(1, listing.len() >= LISTING_BYTES)?;
    let plan = planned(file)?;
    let (_, model) = heard(&plan, reply)?;
    Ok(listing::write(&plan, &model, listing))
}

/// The values that an answer gives, and the same as a model.
fn heard(plan: &Plan, reply: &[u8]) -> Outcome<(Vec<u8>, Model)> {
    let heard = answer::values(reply, plan.variables)?;
    let model = Model::of(plan, &heard)?;
    Ok((heard, model))
}

#[cfg(test)]
mod tests {
    use crate::calls::compare;
    use crate::contender::Direct;
    use planner::random::Random;
    use planner::runs::{scratch, Tally};

    /// A baseline that does something else would measure nothing.
    #[test]
    fn the_same_as_the_second_planner() {
        let mut tally = Tally::new(scratch::failed());
        compare(&Direct, &mut tally, &mut Random::new(7), 30_000);
        assert_eq!(tally.failed, 0);
    }
}
