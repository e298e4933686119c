//! Public solvers on the formulas that the program `formula` wrote: every answer goes through the program `procedure`, every listing is
//! done step by step, and where there is no procedure every solver has to say so.

use super::programs::Programs;
use super::{witness, Tally};
use crate::brute::procedures;
use crate::files::ten_marked;
use crate::formula::formula;
use crate::make::limits::LIMITS;
use crate::make::tables::{large, middle};
use crate::outside::run_with_file;
use crate::programs::{number_written, procedure_writes};
use crate::random::Random;
use crate::reader::read;
use std::path::{Path, PathBuf};

/// Those that answer in the competition's form, and those that only answer through the filter.
pub const AS_THEY_COME: [&str; 3] = ["cadical", "cryptominisat5", "picosat"];
pub const FILTERED: [&str; 2] = ["minisat", "clasp"];

const MOST_TREES: usize = 20_000;

pub struct Solvers {
    /// Those found on the path.
    pub found: Vec<&'static str>,
    /// The filter, `tests/solve`.
    pub filter: PathBuf,
}

/// How answers as they come fared: taken or refused with 13, and refused with 12 for their form.
#[derive(Default)]
struct Forms {
    formed: usize,
    not_formed: Vec<String>,
}

pub fn compare(tally: &mut Tally, random: &mut Random, programs: &Programs, solvers: &Solvers, workshops: &Path, random_tables: usize) {
    let mut forms = Forms::default();
    for (name, table) in tables(random, workshops, random_tables) {
        solve(tally, programs, solvers, &mut forms, &name, &table);
    }
    tally.print_given("public solvers");
    println!("answers as they come: {} formed, {} not formed (12)", forms.formed, forms.not_formed.len());
    let mut of: Vec<&str> = forms.not_formed.iter().map(|text| text.split(" on ").next().unwrap_or("")).collect();
    of.sort_unstable();
    of.dedup();
    for solver in of {
        let count = forms.not_formed.iter().filter(|text| text.starts_with(solver)).count();
        println!("  {solver}: {count} not formed");
    }
}

fn tables(random: &mut Random, workshops: &Path, random_tables: usize) -> Vec<(String, Vec<u8>)> {
    let mut tables: Vec<(String, Vec<u8>)> =
        ten_marked().into_iter().map(|marked| (marked.name.to_string(), marked.file.into_bytes())).collect();
    let mut paths: Vec<PathBuf> = std::fs::read_dir(workshops).expect("the workshops' folder").map(|entry| entry.unwrap().path()).collect();
    paths.sort();
    for path in paths.iter().filter(|path| path.extension().is_some_and(|ending| ending == "tab")) {
        tables.push((path.display().to_string(), std::fs::read(path).expect("a table can be read")));
    }
    for limit in &LIMITS {
        for _ in 0..if limit.question == 3 { 0 } else { 2 } {
            tables.push((format!("at the limit of {}", limit.name), (limit.at)(random)));
        }
    }
    let mut added = 0;
    while added < random_tables {
        let draft = if added % 20 == 0 { large(random) } else { middle(random) };
        if formula(&draft.file()).is_ok() {
            tables.push((format!("random {added}"), draft.file()));
            added += 1;
        }
    }
    tables
}

fn solve(tally: &mut Tally, programs: &Programs, solvers: &Solvers, forms: &mut Forms, name: &str, table: &[u8]) {
    let written = programs.write_formula(table);
    std::fs::write("formula.cnf", &written).expect("the scratch folder takes files");
    let mut wanted = has_procedure(table);
    for solver in &solvers.found {
        if AS_THEY_COME.contains(solver) {
            as_it_comes(tally, programs, forms, solver, name, table);
        }
        let said = filtered(tally, programs, solvers, solver, name, table, wanted);
        wanted = wanted.or(said);
    }
}

/// From the table alone, where brute force can tell.
fn has_procedure(table: &[u8]) -> Option<bool> {
    let table = read(table).expect("the tables solved are formed");
    procedures(&table, MOST_TREES).map(|trees| !trees.is_empty())
}

/// The answer without the filter: `procedure` does what the second planner does with it.
fn as_it_comes(tally: &mut Tally, programs: &Programs, forms: &mut Forms, solver: &str, name: &str, table: &[u8]) {
    let answer = run_with_file(Path::new(solver), &["formula.cnf"], Path::new("/dev/null")).expect("the solver runs").output;
    let expected = procedure_writes(table, &answer);
    let listed = programs.list_procedure(table, &answer);
    let number = number_written(&listed);
    if number == 12 {
        forms.not_formed.push(format!("{solver} on {name}"));
    } else {
        forms.formed += 1;
    }
    // CryptoMiniSat ends a line that it breaks with a space, and an answer may be longer than one is allowed to be; nothing else is unformed.
    let may_be_unformed = solver == "cryptominisat5" || answer.len() > 65_536;
    let passes = listed == expected.as_bytes() && (number == 0 || number == 13 || number == 12 && may_be_unformed);
    tally.case(
        &format!("{solver} as it comes on {name}"),
        number,
        passes,
        &[("table.tab", table), ("answer.txt", &answer), ("listed", &listed)],
    );
}

/// The answer through the filter: a procedure that can be done, or 13 where there is none. Hands back which.
fn filtered(
    tally: &mut Tally,
    programs: &Programs,
    solvers: &Solvers,
    solver: &str,
    name: &str,
    table: &[u8],
    wanted: Option<bool>,
) -> Option<bool> {
    let arguments = [solver, "formula.cnf"];
    let answer = run_with_file(&solvers.filter, &arguments, Path::new("/dev/null")).expect("the filter runs").output;
    let listed = programs.list_procedure(table, &answer);
    let said = match number_written(&listed) {
        0 => Some(true),
        13 if answer.starts_with(b"s UNSATISFIABLE") => Some(false),
        _ => None,
    };
    let passes = said.is_some()
        && wanted.is_none_or(|wanted| said == Some(wanted))
        && listed == procedure_writes(table, &answer).as_bytes()
        && (said == Some(false) || can_be_done(table, &listed));
    let number = number_written(&listed);
    tally.case(&format!("{solver} on {name}"), number, passes, &[("table.tab", table), ("answer.txt", &answer), ("listed", &listed)]);
    said
}

fn can_be_done(table: &[u8], listed: &[u8]) -> bool {
    let table = read(table).expect("the tables solved are formed");
    let checked = witness::check(&table, &String::from_utf8_lossy(listed));
    if let Err(wrong) = &checked {
        println!("{wrong}");
    }
    checked.is_ok()
}
