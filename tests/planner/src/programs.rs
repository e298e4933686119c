//! What the two programs write.

use crate::formula::formula;
use crate::model::{listed, taken};
use crate::text::whole;
use crate::Outcome;

/// What `formula` writes for a table on standard input.
pub fn formula_writes(file: &[u8]) -> String {
    written(formula(file).map(|formula| whole(&formula)))
}

/// What `procedure` writes for a table and an answer.
pub fn procedure_writes(file: &[u8], answer: &[u8]) -> String {
    written(formula(file).and_then(|formula| Ok(listed(&formula, &taken(&formula, answer)?))))
}

/// "When turned down, either program writes only `refused`, a tab, the number and LF."
pub fn written(outcome: Outcome<String>) -> String {
    outcome.unwrap_or_else(|refused| format!("{refused}\n"))
}

/// The number in what a program wrote, 0 where nothing was refused.
pub fn number_written(output: &[u8]) -> u32 {
    let text = String::from_utf8_lossy(output);
    text.strip_prefix("refused\t").and_then(|rest| rest.split(['\t', '\n']).next()?.parse().ok()).unwrap_or(0)
}

#[cfg(test)]
mod tests {
    use super::*;
    use crate::files::{EXAMPLE, EXAMPLE_ANSWER, EXAMPLE_FORMULA, EXAMPLE_LISTING};

    #[test]
    fn one_file_through_both_programs() {
        assert_eq!(formula_writes(EXAMPLE.as_bytes()), EXAMPLE_FORMULA);
        assert_eq!(procedure_writes(EXAMPLE.as_bytes(), EXAMPLE_ANSWER.as_bytes()), EXAMPLE_LISTING);
        assert_eq!(procedure_writes(b"", b""), "refused\t2\n");
        assert_eq!(procedure_writes(EXAMPLE.as_bytes(), b"s SATISFIABLE\nv 1 2 -3 -4 5 0\n"), "refused\t15\n");
    }
}
