//! The seven calls with what they are lent. A call that turns something down leaves every buffer as it was.

use crate::formula::{formula, Formula};
use crate::model::{every_clause_is_satisfied, listed, taken};
use crate::places::{record, Record};
use crate::text::lines_that_fit;
use crate::{question, Outcome};

pub const TREE_RECORDS: usize = 1_024;
pub const TEXT_BYTES: usize = 1_024;
pub const VALUES: usize = 8_191;
pub const LISTING_BYTES: usize = 24_576;

/// The counts of nodes, variables and clauses.
pub fn check(file: &[u8]) -> Outcome<(usize, usize, usize)> {
    let formula = formula(file)?;
    Ok((formula.nodes.len(), formula.variables.count as usize, formula.clauses.len()))
}

/// The node count, and the table's records in the tree.
pub fn build(file: &[u8], tree: &mut [Record]) -> Outcome<usize> {
    question(1, tree.len() >= TREE_RECORDS)?;
    let records = records(&formula(file)?);
    tree[..records.len()].copy_from_slice(&records);
    Ok(records.len())
}

/// The bytes used and the next line.
pub fn write_text(file: &[u8], tree: &[Record], line: usize, text: &mut [u8]) -> Outcome<(usize, usize)> {
    question(1, tree.len() >= TREE_RECORDS && text.len() >= TEXT_BYTES)?;
    write_lines(&with_tree(file, tree)?, line, text)
}

/// The same with no tree lent.
pub fn write_formula(file: &[u8], line: usize, text: &mut [u8]) -> Outcome<(usize, usize)> {
    question(1, text.len() >= TEXT_BYTES)?;
    write_lines(&formula(file)?, line, text)
}

/// How many values were written.
pub fn take_answer(file: &[u8], tree: &[Record], answer: &[u8], values: &mut [u8]) -> Outcome<usize> {
    question(1, tree.len() >= TREE_RECORDS && values.len() >= VALUES)?;
    let model = taken(&with_tree(file, tree)?, answer)?;
    let bytes: Vec<u8> = model.into_iter().map(u8::from).collect();
    Ok(put(&bytes, values))
}

/// The bytes used.
pub fn list_procedure(file: &[u8], tree: &[Record], values: &[u8], listing: &mut [u8]) -> Outcome<usize> {
    question(1, tree.len() >= TREE_RECORDS && values.len() >= VALUES && listing.len() >= LISTING_BYTES)?;
    let formula = with_tree(file, tree)?;
    let own = &values[..formula.variables.count as usize];
    question(14, own.iter().all(|value| *value <= 1))?;
    let model: Vec<bool> = own.iter().map(|value| *value == 1).collect();
    every_clause_is_satisfied(&formula, &model)?;
    Ok(put(listed(&formula, &model).as_bytes(), listing))
}

/// The bytes used; the values are an answer's, and neither they nor a tree are lent.
pub fn list_answer(file: &[u8], answer: &[u8], listing: &mut [u8]) -> Outcome<usize> {
    question(1, listing.len() >= LISTING_BYTES)?;
    let formula = formula(file)?;
    let model = taken(&formula, answer)?;
    Ok(put(listed(&formula, &model).as_bytes(), listing))
}

fn records(formula: &Formula) -> Vec<Record> {
    formula.nodes.iter().map(record).collect()
}

/// Questions 2 to 9, then 10: "Are the first lent tree records, as many as the table has nodes, those of this table?"
fn with_tree(file: &[u8], tree: &[Record]) -> Outcome<Formula> {
    let formula = formula(file)?;
    question(10, tree.starts_with(&records(&formula)))?;
    Ok(formula)
}

fn write_lines(formula: &Formula, line: usize, text: &mut [u8]) -> Outcome<(usize, usize)> {
    let (lines, next) = lines_that_fit(formula, line, text.len())?;
    Ok((put(lines.as_bytes(), text), next))
}

fn put(bytes: &[u8], buffer: &mut [u8]) -> usize {
    buffer[..bytes.len()].copy_from_slice(bytes);
    bytes.len()
}

#[cfg(test)]
mod tests {
    use super::*;
    use crate::files::{answers_turned_down, EXAMPLE, EXAMPLE_ANSWER, EXAMPLE_FORMULA, EXAMPLE_LISTING};
    use crate::Refused;

    const SEVENS: Record = Record { depth: 7, parent: 7, children: 7, steps: 7, jobs: 7 };

    fn example_tree() -> Vec<Record> {
        let mut tree = vec![SEVENS; TREE_RECORDS];
        assert_eq!(build(EXAMPLE.as_bytes(), &mut tree), Ok(2));
        tree
    }

    #[test]
    fn the_example_through_the_calls() {
        let file = EXAMPLE.as_bytes();
        let tree = example_tree();
        assert_eq!(check(file), Ok((2, 5, 9)));
        assert_eq!(tree[..3], [Record::of([0, 0, 1, 0, 1]), Record::of([1, 0, 0, 1, 0]), SEVENS]);
        let mut text = [9; TEXT_BYTES];
        assert_eq!(write_text(file, &tree, 0, &mut text), Ok((EXAMPLE_FORMULA.len(), 10)));
        assert_eq!(text[..EXAMPLE_FORMULA.len()], *EXAMPLE_FORMULA.as_bytes());
        assert_eq!(text[EXAMPLE_FORMULA.len()], 9);
        let mut values = [9; VALUES];
        assert_eq!(take_answer(file, &tree, EXAMPLE_ANSWER.as_bytes(), &mut values), Ok(5));
        assert_eq!(values[..6], [1, 1, 1, 0, 1, 9]);
        let mut listing = [9; LISTING_BYTES];
        assert_eq!(list_procedure(file, &tree, &values, &mut listing), Ok(EXAMPLE_LISTING.len()));
        assert_eq!(listing[..EXAMPLE_LISTING.len()], *EXAMPLE_LISTING.as_bytes());
        assert_eq!(listing[EXAMPLE_LISTING.len()], 9);
    }

    #[test]
    fn the_example_without_a_tree() {
        let file = EXAMPLE.as_bytes();
        let mut text = [9; TEXT_BYTES];
        assert_eq!(write_formula(file, 1, &mut text), Ok((EXAMPLE_FORMULA.len() - 10, 10)));
        assert_eq!(text[..EXAMPLE_FORMULA.len() - 10], EXAMPLE_FORMULA.as_bytes()[10..]);
        assert_eq!(text[EXAMPLE_FORMULA.len() - 10], 9);
        let mut listing = [9; LISTING_BYTES];
        assert_eq!(list_answer(file, EXAMPLE_ANSWER.as_bytes(), &mut listing), Ok(EXAMPLE_LISTING.len()));
        assert_eq!(listing[..EXAMPLE_LISTING.len()], *EXAMPLE_LISTING.as_bytes());
        assert_eq!(listing[EXAMPLE_LISTING.len()], 9);
    }

    #[test]
    fn what_calls_turn_down() {
        let file = EXAMPLE.as_bytes();
        let tree = example_tree();
        let mut text = [9; TEXT_BYTES];
        assert_eq!(write_text(file, &tree, 0, &mut text[1..]), Err(Refused(1)));
        assert_eq!(build(b"", &mut [SEVENS; TREE_RECORDS - 1]), Err(Refused(1)));
        assert_eq!(write_text(file, &tree, 10, &mut text), Err(Refused(11)));
        let mut values = [0; VALUES];
        values[4] = 2;
        assert_eq!(list_procedure(file, &tree, &values, &mut [0; LISTING_BYTES]), Err(Refused(14)));
        values[4] = 0;
        assert_eq!(list_procedure(file, &tree, &values, &mut [0; LISTING_BYTES]), Err(Refused(15)));
    }

    /// A question that comes earlier is put first, and a call that turns something down writes nothing.
    #[test]
    fn what_calls_without_a_tree_turn_down() {
        let (file, answer) = (EXAMPLE.as_bytes(), EXAMPLE_ANSWER.as_bytes());
        let mut text = [9; TEXT_BYTES];
        assert_eq!(write_formula(b"", 10, &mut text[1..]), Err(Refused(1)));
        assert_eq!(write_formula(b"", 10, &mut text), Err(Refused(2)));
        assert_eq!(write_formula(file, 10, &mut text), Err(Refused(11)));
        assert_eq!(text, [9; TEXT_BYTES]);
        let mut listing = [9; LISTING_BYTES];
        assert_eq!(list_answer(b"", b"", &mut listing[1..]), Err(Refused(1)));
        assert_eq!(list_answer(b"", b"", &mut listing), Err(Refused(2)));
        for (unmet, answer) in answers_turned_down() {
            assert_eq!(list_answer(file, answer.as_bytes(), &mut listing), Err(Refused(unmet)));
        }
        assert_eq!(listing, [9; LISTING_BYTES]);
        assert_eq!(list_answer(file, answer, &mut listing), Ok(EXAMPLE_LISTING.len()));
    }

    #[test]
    fn a_field_changed() {
        let (file, tree) = (EXAMPLE.as_bytes(), example_tree());
        let written = |record: usize, field: usize| {
            let mut changed = tree.clone();
            changed[record] = tree[record].with(field, tree[record].fields()[field] + 1);
            write_text(file, &changed, 0, &mut [0; TEXT_BYTES]).map(|(_, next)| next)
        };
        for field in 0..Record::FIELDS {
            assert_eq!([0, 1, 2].map(|record| written(record, field)), [Err(Refused(10)), Err(Refused(10)), Ok(10)]);
        }
    }
}
