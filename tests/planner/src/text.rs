//! The formula's text, and which of its lines a text call writes: question 11.

use crate::formula::Formula;
use crate::{question, Outcome};
use std::fmt::Write;

/// Line 0 is the header, line j the jth clause; each with its LF.
pub fn line(formula: &Formula, number: usize) -> String {
    if number == 0 {
        return format!("p cnf {} {}\n", formula.variables.count, formula.clauses.len());
    }
    let mut text = String::new();
    for literal in &formula.clauses[number - 1] {
        write!(text, "{literal} ").expect("a string takes all");
    }
    text + "0\n"
}

pub fn whole(formula: &Formula) -> String {
    (0..=formula.clauses.len()).map(|number| line(formula, number)).collect()
}

/// As many whole lines from `first` on as fit into `room` bytes, and the next line.
pub fn lines_that_fit(formula: &Formula, first: usize, room: usize) -> Outcome<(String, usize)> {
    question(11, first <= formula.clauses.len())?;
    let mut text = String::new();
    for number in first..=formula.clauses.len() {
        let next = line(formula, number);
        if text.len() + next.len() > room {
            return Ok((text, number));
        }
        text += &next;
    }
    Ok((text, formula.clauses.len() + 1))
}

#[cfg(test)]
mod tests {
    use super::*;
    use crate::files::{ten_marked, EXAMPLE, EXAMPLE_FORMULA};
    use crate::formula::formula;
    use crate::Refused;

    #[test]
    fn the_example() {
        assert_eq!(whole(&formula(EXAMPLE.as_bytes()).unwrap()), EXAMPLE_FORMULA);
    }

    #[test]
    fn marked_sizes() {
        let header = |at: usize| line(&formula(ten_marked()[at].file.as_bytes()).unwrap(), 0);
        assert_eq!(header(1), "p cnf 5 9\n");
        assert_eq!(header(2), "p cnf 3 4\n");
        assert_eq!(header(3), "p cnf 2 3\n");
    }

    #[test]
    fn a_call_writes_what_fits() {
        let example = formula(EXAMPLE.as_bytes()).unwrap();
        assert_eq!(lines_that_fit(&example, 0, 14).unwrap(), ("p cnf 5 9\n1 0\n".to_string(), 2));
        assert_eq!(lines_that_fit(&example, 0, 13).unwrap(), ("p cnf 5 9\n".to_string(), 1));
        assert_eq!(lines_that_fit(&example, 9, 1024).unwrap(), ("4 -5 3 0\n".to_string(), 10));
        assert_eq!(lines_that_fit(&example, 10, 1024), Err(Refused(11)));
    }
}
