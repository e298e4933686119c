//! Holds the cases that are stored with the crates to the second planner: `stored CRATES [--write]`, with the folder of the crates. For
//! each line of `CRATES/stored/data/index` the gate wants the program `stored` to print what the second planner gives. The cases of each
//! kind come to every question that can turn one down, and a case names every file of the data. With `--write`, `CRATES/stored/stdout`, the
//! lines that the gate wants, is written anew from the index first.

use planner::runs::batch::{count, every_number, expected, Case, File, INDEX_ROOM};
use planner::runs::kinds::Kind;
use planner::runs::{scratch, Tally};
use std::collections::BTreeSet;
use std::path::Path;
use std::process::ExitCode;
use std::rc::Rc;

/// A file of the data; one that is not there counts as empty.
fn file(data: &Path, name: &str) -> File {
    (name.to_string(), Rc::new(std::fs::read(data.join(name)).unwrap_or_default()))
}

/// The case of a line, which has to be in the form in which random cases are written too.
fn case(data: &Path, line: &str) -> Case {
    let fields: Vec<&str> = line.split('\t').collect();
    let kind = Kind::named(fields[0]).unwrap_or_else(|| panic!("a known kind of case: {line}"));
    let table = file(data, fields.get(1).unwrap_or_else(|| panic!("a table: {line}")));
    let answer = fields.get(2).filter(|name| **name != "-").map(|name| file(data, name));
    let numbers: Vec<usize> = fields.iter().skip(3).map(|field| field.parse().unwrap_or_else(|_| panic!("a number: {line}"))).collect();
    let case = Case::new(kind, table, answer, &numbers);
    assert_eq!(case.line, line, "a line as it is to be written");
    case
}

/// A file that no case names is data for nothing.
fn files_named(tally: &mut Tally, data: &Path, cases: &[Case]) {
    let mut named: BTreeSet<&str> = cases.iter().flat_map(|case| &case.files).map(|(name, _)| name.as_str()).collect();
    named.insert("index");
    let there = std::fs::read_dir(data).expect("the data can be read").map(|entry| entry.expect("an entry").file_name());
    let idle: Vec<String> = there.map(|name| name.to_string_lossy().to_string()).filter(|name| !named.contains(name.as_str())).collect();
    tally.holds(&format!("files that no case names: {}", idle.join(", ")), idle.is_empty());
}

fn hold(tally: &mut Tally, data: &Path, cases: &[Case], output: &[u8]) {
    count(tally, cases, output);
    tally.print_given("stored");
    let of_kind = |kind: Kind| format!("{} {}", kind.word(), cases.iter().filter(|case| case.kind == kind).count());
    println!("by kind: {}", Kind::ALL.map(of_kind).join(", "));
    every_number(tally);
    files_named(tally, data, cases);
    let index: usize = cases.iter().map(|case| case.line.len() + 1).sum();
    tally.holds("an index that the program takes whole", index < INDEX_ROOM);
}

fn main() -> ExitCode {
    let arguments: Vec<String> = std::env::args().skip(1).collect();
    let Some(folder) = arguments.first().map(|crates| Path::new(crates).join("stored")) else {
        eprintln!("stored: the folder of the crates is wanted");
        return ExitCode::FAILURE;
    };
    let data = folder.join("data");
    let index = std::fs::read_to_string(data.join("index")).expect("the crate has an index");
    let cases: Vec<Case> = index.lines().map(|line| case(&data, line)).collect();
    if arguments.iter().any(|word| word == "--write") {
        std::fs::write(folder.join("stdout"), expected(&cases)).expect("the crate's stdout can be written");
    }
    let output = std::fs::read(folder.join("stdout")).expect("the crate has what is to be printed");
    let mut tally = Tally::new(scratch::failed());
    hold(&mut tally, &data, &cases, &output);
    tally.verdict()
}
