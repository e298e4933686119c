//! What is lent to the calls: trees, values and lengths, right ones and wrong ones.

use planner::answer;
use planner::calls::{LISTING_BYTES, TEXT_BYTES, VALUES};
use planner::formula::{formula, Formula};
use planner::places::{record, Record};
use planner::random::Random;
use planner::text::line;

/// Lengths of a tree, in records: five that are too short, of which 205 records have more than 1,024 fields, and four that are long enough.
pub const LENGTHS: [usize; 9] = [0, 1, 204, 205, 1_023, 1_024, 1_025, 1_026, 1_100];
const TOO_SHORT: &[usize] = LENGTHS.split_at(5).0;
const LONG_ENOUGH: &[usize] = LENGTHS.split_at(5).1;

/// A table with what is known of it before the calls.
pub struct Subject {
    pub file: Vec<u8>,
    pub formula: Option<Formula>,
    /// Its records; none where it is turned down.
    pub tree: Vec<Record>,
    /// Lines to ask for: the first ones, the last, past it.
    pub lines: Vec<usize>,
}

impl Subject {
    pub fn of(file: Vec<u8>) -> Subject {
        let formula = formula(&file).ok();
        let tree = formula.iter().flat_map(|formula| &formula.nodes).map(record).collect();
        let clauses = formula.as_ref().map_or(9, |formula| formula.clauses.len());
        let lines = vec![0, 0, 1, 2, clauses / 3, clauses / 2, clauses - 1, clauses, clauses + 1, usize::MAX - 1, usize::MAX];
        Subject { file, formula, tree, lines }
    }

    fn line_length(&self, number: usize) -> Option<usize> {
        self.formula.as_ref().filter(|formula| number <= formula.clauses.len()).map(|formula| line(formula, number).len())
    }
}

pub fn random_records(random: &mut Random, count: usize) -> Vec<Record> {
    (0..count).map(|_| Record::of(std::array::from_fn(|_| random.word()))).collect()
}

/// The table's own tree, in so many records that held something else before.
pub fn own_tree(random: &mut Random, subject: &Subject, records: usize) -> Vec<Record> {
    let mut tree = random_records(random, records);
    tree[..subject.tree.len()].copy_from_slice(&subject.tree);
    tree
}

/// The table's own tree, and a tree that is too short, not its own, or changed behind its records, where that does not matter.
pub fn trees(random: &mut Random, subject: &Subject, other: &[Record]) -> [Vec<Record>; 2] {
    let length = *random.pick(LONG_ENOUGH);
    let own = own_tree(random, subject, length);
    let mut changed = own.clone();
    let place = random.below(subject.tree.len().max(1));
    let behind = random.between(subject.tree.len().min(length - 1), length - 1);
    match random.below(12) {
        0 => changed.truncate(*random.pick(TOO_SHORT)),
        1 => changed[..other.len()].copy_from_slice(other),
        2 => changed.fill(Record::of([0; Record::FIELDS])),
        3 => changed.swap(place, random.below(subject.tree.len().max(1))),
        4 => changed[place] = random_records(random, 1)[0],
        5 => changed[behind] = random_records(random, 1)[0],
        6 => change_field(&mut changed[behind], random.below(Record::FIELDS)),
        7..=8 => change_field(&mut changed[place], random.below(Record::FIELDS)),
        _ => change_bit(random, &mut changed[place]),
    }
    [own, changed]
}

fn change_field(record: &mut Record, field: usize) {
    *record = record.with(field, record.fields()[field].wrapping_add(1));
}

fn change_bit(random: &mut Random, record: &mut Record) {
    let field = random.below(Record::FIELDS);
    *record = record.with(field, record.fields()[field] ^ 1 << random.below(64));
}

/// The tree of an accepted table at every length, and with each field changed of its first record and its last, of the record behind and of
/// the last one lent.
pub fn edge_trees(random: &mut Random, subject: &Subject) -> Vec<Vec<Record>> {
    let own = own_tree(random, subject, LENGTHS[8]);
    let mut trees: Vec<Vec<Record>> = LENGTHS.map(|length| own[..length].to_vec()).to_vec();
    for place in [0, subject.tree.len() - 1, subject.tree.len(), own.len() - 1] {
        for field in 0..Record::FIELDS {
            let mut changed = own.clone();
            change_field(&mut changed[place], field);
            trees.push(changed);
        }
    }
    trees
}

/// Too short or just long enough; what some whole lines take, and one byte less and more.
pub fn text_lengths(random: &mut Random, subject: &Subject, first: usize) -> [usize; 4] {
    let whole = lines_of_some_bytes(random, subject, first);
    [*random.pick(&[0, 1, TEXT_BYTES - 1, TEXT_BYTES, TEXT_BYTES + 1, 65_536]), whole - 1, whole, whole + 1]
}

/// How many bytes the lines from `first` on take, as many as come to a random length, which is at least what a call wants.
fn lines_of_some_bytes(random: &mut Random, subject: &Subject, first: usize) -> usize {
    let wanted = random.between(TEXT_BYTES + 1, 4_096);
    let mut bytes = 0;
    let mut number = first;
    while bytes < wanted {
        let Some(length) = subject.line_length(number) else { return wanted };
        bytes += length;
        number += 1;
    }
    bytes
}

/// Most often just long enough.
pub fn listing_length(random: &mut Random) -> usize {
    *random.pick(&[LISTING_BYTES, LISTING_BYTES, LISTING_BYTES, LISTING_BYTES + 1, 30_000, LISTING_BYTES - 1, 0])
}

/// The values that the answer gives, and 0 elsewhere.
pub fn values_given(subject: &Subject, reply: &[u8]) -> Vec<u8> {
    let variables = subject.formula.as_ref().map_or(0, |formula| formula.variables.count);
    let mut values: Vec<u8> = answer::values(reply, variables).unwrap_or_default().into_iter().map(u8::from).collect();
    values.resize(VALUES, 0);
    values
}

/// Values in place of an answer: those that the answer gives, one of them changed, or others.
pub fn values_lent(random: &mut Random, subject: &Subject, reply: &[u8]) -> Vec<u8> {
    let variables = subject.formula.as_ref().map_or(5, |formula| formula.variables.count as usize);
    let room = *random.pick(&[VALUES, VALUES, VALUES, VALUES + 1, VALUES + 300, VALUES - 1, 0]);
    let mut values: Vec<u8> = (0..room).map(|_| random.word() as u8).collect();
    let own = variables.min(room);
    match answer::values(reply, variables as i32) {
        Ok(given) if random.chance(90) => values.iter_mut().zip(given).for_each(|(value, given)| *value = u8::from(given)),
        _ => values[..own].iter_mut().for_each(|value| *value &= 1),
    }
    let place = random.below(own.max(1));
    match random.below(10) {
        0 if own > 0 => values[place] ^= 1,
        1 if own > 0 => values[place] = *random.pick(&[2, 3, 7, 128, 255]),
        2 => values[..own].fill(0),
        3 => values[..own].fill(1),
        _ => (),
    }
    values
}

#[cfg(test)]
mod tests {
    use super::*;
    use planner::calls::write_text;
    use planner::files::EXAMPLE;
    use planner::{Outcome, Refused};

    /// Cases that all come to the same outcome would show nothing of the tree.
    #[test]
    fn what_the_edges_are_meant_for() {
        let subject = Subject::of(EXAMPLE.as_bytes().to_vec());
        let outcome = |tree: &Vec<Record>| write_text(&subject.file, tree, 0, &mut [0; TEXT_BYTES]).map(|(_, next)| next);
        let outcomes: Vec<Outcome<usize>> = edge_trees(&mut Random::new(1), &subject).iter().map(outcome).collect();
        let meant = [(5, Err(Refused(1))), (4, Ok(10)), (10, Err(Refused(10))), (10, Ok(10))];
        assert_eq!(outcomes, meant.map(|(count, outcome)| vec![outcome; count]).concat());
    }
}
