//! Cases through the programs `formula` and `procedure`, a process each. The working directory is a scratch folder.

use super::kinds::Kind;
use super::Tally;
use crate::files::{tables_turned_down, EXAMPLE, EXAMPLE_ANSWER, EXAMPLE_LISTING};
use crate::make::cases::{answer_case, at_limit, each_question, past_limit, table_case, AnswerCase, TableCase};
use crate::make::limits::LIMITS;
use crate::outside::run_with_file;
use crate::programs::{formula_writes, number_written, procedure_writes};
use crate::random::Random;
use std::fs::write;
use std::path::{Path, PathBuf};

const FORMULA: &str = "the program formula";
const PROCEDURE: &str = "the program procedure";

/// Where the compiled programs are.
pub struct Programs {
    pub formula: PathBuf,
    pub procedure: PathBuf,
    /// Runs what is below the two on an index of cases.
    pub stored: PathBuf,
}

impl Programs {
    pub fn of(folder: &Path) -> Programs {
        let at = |name| folder.join(name);
        Programs { formula: at("formula"), procedure: at("procedure"), stored: at("stored") }
    }

    pub fn write_formula(&self, table: &[u8]) -> Vec<u8> {
        write("input", table).expect("the scratch folder takes files");
        let wrote = run_with_file(&self.formula, &[], Path::new("input")).expect("formula runs");
        [wrote.output, wrote.error].concat()
    }

    pub fn list_procedure(&self, table: &[u8], answer: &[u8]) -> Vec<u8> {
        write("table.tab", table).expect("the scratch folder takes files");
        write("answer.txt", answer).expect("the scratch folder takes files");
        let wrote = run_with_file(&self.procedure, &[], Path::new("/dev/null")).expect("procedure runs");
        [wrote.output, wrote.error].concat()
    }
}

pub fn compare(tally: &mut Tally, random: &mut Random, programs: &Programs, cases: usize) {
    for case in each_question() {
        procedure_case(tally, programs, &case);
    }
    for (number, table) in tables_turned_down() {
        formula_case(
            tally,
            programs,
            &TableCase { name: format!("for question {number}"), table: table.into_bytes(), meant: Some(number) },
        );
    }
    for _ in 0..cases / 2 {
        formula_case(tally, programs, &table_case(random));
        procedure_case(tally, programs, &answer_case(random));
    }
    files_that_are_not_there(tally, programs);
    tally.print_given("programs formula and procedure");
    tally.gives(FORMULA, &Kind::Formula.numbers());
    tally.gives(PROCEDURE, &Kind::Procedure.numbers());
}

/// Every limit, and one past it, three times each.
pub fn limits(tally: &mut Tally, random: &mut Random, programs: &Programs) {
    for limit in LIMITS.iter().cycle().take(3 * LIMITS.len()) {
        for case in [at_limit(random, limit), past_limit(random, limit)] {
            formula_case(tally, programs, &case);
        }
    }
    tally.print_given("limits");
}

pub fn formula_case(tally: &mut Tally, programs: &Programs, case: &TableCase) {
    let expected = formula_writes(&case.table);
    let written = programs.write_formula(&case.table);
    let number = number_written(expected.as_bytes());
    let passes = written == expected.as_bytes() && case.meant.is_none_or(|meant| meant == number);
    tally.given_by(FORMULA, number);
    tally.case(
        &format!("formula, {}", case.name),
        number,
        passes,
        &[("table.tab", &case.table), ("expected", expected.as_bytes()), ("written", &written)],
    );
}

pub fn procedure_case(tally: &mut Tally, programs: &Programs, case: &AnswerCase) {
    let expected = procedure_writes(&case.table, &case.answer);
    let written = programs.list_procedure(&case.table, &case.answer);
    let number = number_written(expected.as_bytes());
    let passes = written == expected.as_bytes() && case.meant.is_none_or(|meant| meant == number);
    tally.given_by(PROCEDURE, number);
    tally.case(
        &format!("procedure, {}", case.name),
        number,
        passes,
        &[("table.tab", &case.table), ("answer.txt", &case.answer), ("expected", expected.as_bytes()), ("written", &written)],
    );
}

/// What stands where a file should.
#[derive(Clone, Copy)]
enum Place {
    Nothing,
    Folder,
    File(&'static str),
}

/// "A file that cannot be opened counts as empty", and so does one that cannot be read.
fn files_that_are_not_there(tally: &mut Tally, programs: &Programs) {
    let (table, answer) = (Place::File(EXAMPLE), Place::File(EXAMPLE_ANSWER));
    for (name, table, answer, expected) in [
        ("no table", Place::Nothing, answer, "refused\t2\n"),
        ("a folder for a table", Place::Folder, answer, "refused\t2\n"),
        ("no answer", table, Place::Nothing, "refused\t12\n"),
        ("a folder for an answer", table, Place::Folder, "refused\t12\n"),
        ("neither", Place::Nothing, Place::Nothing, "refused\t2\n"),
        ("both", table, answer, EXAMPLE_LISTING),
    ] {
        put("table.tab", table);
        put("answer.txt", answer);
        let wrote = run_with_file(&programs.procedure, &[], Path::new("/dev/null")).expect("procedure runs");
        let passes = wrote.output == expected.as_bytes() && wrote.error.is_empty();
        tally.case(name, number_written(expected.as_bytes()), passes, &[("written", &wrote.output)]);
    }
    let folder = run_with_file(&programs.formula, &[], Path::new(".")).expect("formula runs");
    tally.case("a folder as standard input", 2, folder.output == b"refused\t2\n" && folder.error.is_empty(), &[]);
}

fn put(path: &str, place: Place) {
    let _ = std::fs::remove_file(path);
    let _ = std::fs::remove_dir(path);
    match place {
        Place::Nothing => (),
        Place::Folder => std::fs::create_dir(path).expect("the scratch folder takes folders"),
        Place::File(text) => write(path, text).expect("the scratch folder takes files"),
    }
}
