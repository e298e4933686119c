//! What the program `stored` prints for a line of its index, worked out by the second planner. The program puts each line through what the
//! crates give, with buffers whose contents before are known, and prints what comes back and what is left.

use crate::calls::{check, list_answer, write_formula, LISTING_BYTES, TEXT_BYTES};
use crate::formula::{formula, Formula};
use crate::programs::{formula_writes, number_written, procedure_writes, written};
use crate::reader::read;
use crate::table::{Facts, Table, Task};
use crate::text::lines_that_fit;
use crate::Outcome;

/// How many bytes the program has for a text and for a listing, of which a case lends the first.
const TEXT_ROOM: usize = 65_536;
const LISTING_ROOM: usize = LISTING_BYTES + 24;

/// What every byte of a buffer holds before a call.
const BEFORE: u8 = 7;

/// What is done with a case's table.
#[derive(Debug, Clone, Copy, PartialEq, Eq)]
pub enum Kind {
    /// Read, and written with numbers for the names that are used.
    Read,
    /// Its nodes, variables and clauses counted.
    Check,
    /// What the program `formula` writes, in parts of at most so many bytes.
    Formula,
    /// A text call from a line, into so many bytes.
    Text,
    /// The same as `Formula`, of which bytes, parts and a checksum are told.
    Whole,
    /// What the program `procedure` writes.
    Procedure,
    /// The answer listed, into so many bytes.
    List,
}

impl Kind {
    pub const ALL: [Kind; 7] = [Kind::Read, Kind::Check, Kind::Formula, Kind::Text, Kind::Whole, Kind::Procedure, Kind::List];

    /// As the index names it.
    pub fn word(self) -> &'static str {
        match self {
            Kind::Read => "read",
            Kind::Check => "check",
            Kind::Formula => "formula",
            Kind::Text => "text",
            Kind::Whole => "whole",
            Kind::Procedure => "procedure",
            Kind::List => "list",
        }
    }

    pub fn named(word: &str) -> Option<Kind> {
        Kind::ALL.into_iter().find(|kind| kind.word() == word)
    }

    /// The numbers of the questions that can turn a case of this kind down, and 0 for a case that is taken.
    pub fn numbers(self) -> Vec<u32> {
        match self {
            Kind::Read => [vec![0], (2..=7).collect()].concat(),
            Kind::Check | Kind::Formula | Kind::Whole => [vec![0], (2..=9).collect()].concat(),
            Kind::Text => [(0..=9).collect(), vec![11]].concat(),
            Kind::Procedure => [vec![0], (2..=9).collect(), (12..=15).collect()].concat(),
            Kind::List => [(0..=9).collect::<Vec<u32>>(), (12..=15).collect()].concat(),
        }
    }
}

/// What is printed behind a line.
pub fn printed(kind: Kind, table: &[u8], answer: &[u8], numbers: [usize; 2]) -> String {
    let [first, second] = numbers;
    match kind {
        Kind::Read => written(read(table).map(|table| lines_of(&table))),
        Kind::Check => written(check(table).map(|(nodes, variables, clauses)| format!("{nodes}\t{variables}\t{clauses}\n"))),
        Kind::Formula => formula_writes(table),
        Kind::Text => text(table, first, second),
        Kind::Whole => whole(table, first),
        Kind::Procedure => procedure_writes(table, answer),
        Kind::List => list(table, answer, first),
    }
}

/// The number of the question that turns a case down, 0 where none does.
pub fn number(kind: Kind, table: &[u8], printed: &str) -> u32 {
    match kind {
        // Sizes are told of a refusal too.
        Kind::Whole => formula(table).map_or_else(|refused| refused.0, |_| 0),
        _ => number_written(printed.as_bytes()),
    }
}

// What the reader promises

fn lines_of(table: &Table) -> String {
    let mut text = String::new();
    for name in &table.facts {
        text += &format!("F\t{name}\n");
    }
    for step in &table.steps {
        text += &format!("S\t{}\t{}\t{}\t{}\n", step.name, set(&step.needs), set(&step.sets), set(&step.clears));
    }
    for name in &table.jobs {
        text += &format!("T\t{name}\n");
    }
    for method in &table.methods {
        text += &format!("M\t{}\t{}\n", method.job, list_of(method.body.iter().map(task)));
    }
    text + &format!("I\t{}\nR\t{}\t{}\n", set(&table.start), table.root, table.depth)
}

fn set(facts: &Facts) -> String {
    list_of(facts.iter().map(usize::to_string))
}

fn task(task: &Task) -> String {
    match task {
        Task::Step(step) => format!("s{step}"),
        Task::Job(job) => format!("j{job}"),
    }
}

fn list_of(members: impl Iterator<Item = String>) -> String {
    crate::make::draft::list(&members.collect::<Vec<String>>())
}

// Calls

/// How much of a buffer a case lends: none where it has fewer bytes than that.
fn within(length: usize, room: usize) -> usize {
    if length <= room {
        length
    } else {
        0
    }
}

fn text(file: &[u8], line: usize, length: usize) -> String {
    let mut buffer = vec![BEFORE; TEXT_ROOM];
    let outcome = write_formula(file, line, &mut buffer[..within(length, TEXT_ROOM)]);
    let told = outcome.map_or_else(|refused| refused.to_string(), |(used, next)| format!("{used}\t{next}"));
    format!("{told}\t{}\n", checksum(&buffer))
}

fn whole(file: &[u8], length: usize) -> String {
    let lent = within(length, TEXT_ROOM);
    if lent < TEXT_BYTES {
        return String::new();
    }
    let (text, parts) = in_parts(formula(file), lent);
    format!("{}\t{parts}\t{}\n", text.len(), checksum(text.as_bytes()))
}

/// What `formula` writes, and in how many parts of at most so many bytes. A refusal is one.
fn in_parts(formula: Outcome<Formula>, most: usize) -> (String, usize) {
    let formula = match formula {
        Ok(formula) => formula,
        Err(refused) => return (written(Err(refused)), 1),
    };
    let (mut text, mut parts, mut line) = (String::new(), 0, 0);
    while line <= formula.clauses.len() {
        let (lines, next) = lines_that_fit(&formula, line, most).expect("the line is there");
        text += &lines;
        parts += 1;
        line = next;
    }
    (text, parts)
}

fn list(file: &[u8], answer: &[u8], length: usize) -> String {
    let mut buffer = vec![BEFORE; LISTING_ROOM];
    let outcome = list_answer(file, answer, &mut buffer[..within(length, LISTING_ROOM)]);
    let told = outcome.map_or_else(|refused| refused.to_string(), |used| used.to_string());
    let (listing, behind) = buffer.split_at(outcome.unwrap_or(0));
    let kept = if behind.iter().all(|byte| *byte == BEFORE) { "kept" } else { "changed" };
    format!("{told}\t{kept}\n{}", String::from_utf8_lossy(listing))
}

/// The 64-bit FNV-1a checksum.
fn checksum(bytes: &[u8]) -> u64 {
    bytes.iter().fold(0xcbf2_9ce4_8422_2325, |sum, byte| (sum ^ u64::from(*byte)).wrapping_mul(0x100_0000_01b3))
}

#[cfg(test)]
mod tests {
    use super::*;
    use crate::files::{EXAMPLE, EXAMPLE_ANSWER, EXAMPLE_FORMULA, EXAMPLE_LISTING};

    fn example(kind: Kind, numbers: [usize; 2]) -> String {
        printed(kind, EXAMPLE.as_bytes(), EXAMPLE_ANSWER.as_bytes(), numbers)
    }

    #[test]
    fn the_example_in_every_kind() {
        assert_eq!(example(Kind::Read, [0, 0]), "F\topen\nS\tlift\t-\t0\t-\nT\tserve\nM\t0\ts0\nI\t-\nR\t0\t1\n");
        assert_eq!(example(Kind::Check, [0, 0]), "2\t5\t9\n");
        assert_eq!(example(Kind::Formula, [1_024, 0]), EXAMPLE_FORMULA);
        assert_eq!(example(Kind::Procedure, [0, 0]), EXAMPLE_LISTING);
        assert_eq!(example(Kind::List, [LISTING_BYTES, 0]), format!("21\tkept\n{EXAMPLE_LISTING}"));
        assert_eq!(example(Kind::List, [LISTING_BYTES - 1, 0]), "refused\t1\tkept\n");
        let whole = [EXAMPLE_FORMULA.as_bytes(), &[BEFORE; TEXT_ROOM][EXAMPLE_FORMULA.len()..]].concat();
        assert_eq!(example(Kind::Text, [0, TEXT_BYTES]), format!("70\t10\t{}\n", checksum(&whole)));
        assert_eq!(example(Kind::Text, [10, TEXT_BYTES]), format!("refused\t11\t{}\n", checksum(&[BEFORE; TEXT_ROOM])));
        assert_eq!(example(Kind::Whole, [TEXT_BYTES, 0]), format!("70\t1\t{}\n", checksum(EXAMPLE_FORMULA.as_bytes())));
        assert_eq!(example(Kind::Whole, [TEXT_BYTES - 1, 0]), "");
    }

    #[test]
    fn numbers_told() {
        for kind in Kind::ALL {
            let lent = if kind == Kind::Text { [0, TEXT_BYTES] } else { [LISTING_BYTES, 0] };
            let told = |table: &[u8]| number(kind, table, &printed(kind, table, EXAMPLE_ANSWER.as_bytes(), lent));
            assert_eq!([told(b""), told(EXAMPLE.as_bytes())], [2, 0]);
            assert_eq!(Kind::named(kind.word()), Some(kind));
        }
    }

    /// The published checksums of no byte and of one.
    #[test]
    fn checksums() {
        assert_eq!([checksum(b""), checksum(b"a")], [0xcbf2_9ce4_8422_2325, 0xaf63_dc4c_8601_ec8c]);
    }
}
