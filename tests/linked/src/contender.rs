//! The seven calls as a trait, so that everything that does them is compared and measured in the same way.

use crate::direct;
use planner::calls as second;
use planner::places::Record;
use planner::{Outcome, Refused};

/// What the numbers lent for values hold before a call.
pub const LENT: usize = 0xdead_beef;

/// What came back: the outcome with the call's values, and whether a refusal left the numbers lent for them alone.
#[derive(Debug, Clone, Copy, PartialEq, Eq)]
pub struct Called<const N: usize> {
    pub outcome: Outcome<[usize; N]>,
    pub kept: bool,
}

impl<const N: usize> Called<N> {
    /// Of a C function, which returns a question's number or 0 and lays its values into numbers that are lent.
    pub fn of(question: usize, values: [usize; N]) -> Called<N> {
        match question {
            0 => Called { outcome: Ok(values), kept: true },
            _ => Called { outcome: Err(Refused(u32::try_from(question).unwrap_or(u32::MAX))), kept: values == [LENT; N] },
        }
    }
}

/// Rust's own functions hand their values back.
impl<const N: usize> From<Outcome<[usize; N]>> for Called<N> {
    fn from(outcome: Outcome<[usize; N]>) -> Called<N> {
        Called { outcome, kept: true }
    }
}

impl From<Outcome<usize>> for Called<1> {
    fn from(outcome: Outcome<usize>) -> Called<1> {
        outcome.map(|value| [value]).into()
    }
}

pub trait Calls {
    /// The counts of nodes, variables and clauses.
    fn check(&self, file: &[u8]) -> Called<3>;

    /// The node count.
    fn build(&self, file: &[u8], tree: &mut [Record]) -> Called<1>;

    /// The bytes used and the next line.
    fn write_text(&self, file: &[u8], tree: &[Record], line: usize, text: &mut [u8]) -> Called<2>;

    /// The same with no tree lent.
    fn write_formula(&self, file: &[u8], line: usize, text: &mut [u8]) -> Called<2>;

    /// How many values were written.
    fn take_answer(&self, file: &[u8], tree: &[Record], reply: &[u8], values: &mut [u8]) -> Called<1>;

    /// The bytes used.
    fn list_procedure(&self, file: &[u8], tree: &[Record], values: &[u8], listing: &mut [u8]) -> Called<1>;

    /// The bytes used; the values are an answer's, and neither they nor a tree are lent.
    fn list_answer(&self, file: &[u8], reply: &[u8], listing: &mut [u8]) -> Called<1>;
}

/// The planner in Rust that is written for speed.
pub struct Direct;

impl Calls for Direct {
    fn check(&self, file: &[u8]) -> Called<3> {
        direct::check(file).into()
    }

    fn build(&self, file: &[u8], tree: &mut [Record]) -> Called<1> {
        direct::build(file, tree).into()
    }

    fn write_text(&self, file: &[u8], tree: &[Record], line: usize, text: &mut [u8]) -> Called<2> {
        direct::write_text(file, tree, line, text).into()
    }

    fn write_formula(&self, file: &[u8], line: usize, text: &mut [u8]) -> Called<2> {
        direct::write_formula(file, line, text).into()
    }

    fn take_answer(&self, file: &[u8], tree: &[Record], reply: &[u8], values: &mut [u8]) -> Called<1> {
        direct::take_answer(file, tree, reply, values).into()
    }

    fn list_procedure(&self, file: &[u8], tree: &[Record], values: &[u8], listing: &mut [u8]) -> Called<1> {
        direct::list_procedure(file, tree, values, listing).into()
    }

    fn list_answer(&self, file: &[u8], reply: &[u8], listing: &mut [u8]) -> Called<1> {
        direct::list_answer(file, reply, listing).into()
    }
}

/// The second planner, which is written to be read.
pub struct Second;

impl Calls for Second {
    fn check(&self, file: &[u8]) -> Called<3> {
        second::check(file).map(|(nodes, variables, clauses)| [nodes, variables, clauses]).into()
    }

    fn build(&self, file: &[u8], tree: &mut [Record]) -> Called<1> {
        second::build(file, tree).into()
    }

    fn write_text(&self, file: &[u8], tree: &[Record], line: usize, text: &mut [u8]) -> Called<2> {
        second::write_text(file, tree, line, text).map(|(used, next)| [used, next]).into()
    }

    fn write_formula(&self, file: &[u8], line: usize, text: &mut [u8]) -> Called<2> {
        second::write_formula(file, line, text).map(|(used, next)| [used, next]).into()
    }

    fn take_answer(&self, file: &[u8], tree: &[Record], reply: &[u8], values: &mut [u8]) -> Called<1> {
        second::take_answer(file, tree, reply, values).into()
    }

    fn list_procedure(&self, file: &[u8], tree: &[Record], values: &[u8], listing: &mut [u8]) -> Called<1> {
        second::list_procedure(file, tree, values, listing).into()
    }

    fn list_answer(&self, file: &[u8], reply: &[u8], listing: &mut [u8]) -> Called<1> {
        second::list_answer(file, reply, listing).into()
    }
}
