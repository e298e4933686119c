//! The two programs as processes, from start to end, beside the same in Rust and beside a program that does nothing.

use super::input::Input;
use super::report::{figures, grouped, row, title};
use crate::clock::{in_turns, Clock, Work};
use planner::runs::scratch;
use std::fs::File;
use std::path::{Path, PathBuf};
use std::process::{Command, Stdio};

/// What a program's process is given, as files of the working directory.
const TABLE: &str = "table.tab";
const ANSWER: &str = "answer.txt";
const WRITTEN: &str = "written";

/// Of the folders in which the programs `formula` and `procedure` were built, the older one where there is one and has them.
pub fn measure(newer: &Path, older: Option<&Path>, formulas: &[&Input], procedures: &[&Input]) {
    let own = std::env::current_exe().expect("a program knows where it is");
    let rust = own.parent().expect("a program is in a folder").to_path_buf();
    let built = |folder: &Path, program: &str| folder.join("target/bin").join(program);
    let has_both = |folder: &Path| PROGRAMS.iter().all(|program| built(folder, program).is_file());
    if !has_both(newer) {
        println!("\nNo programs were measured: {} has none in target/bin.", newer.display());
        return;
    }
    let older = older.filter(|older| has_both(older));
    let here = std::env::current_dir().expect("the working directory is there");
    let scratch = scratch::enter();
    let older_name = older.map(|_| "older program");
    let names: Vec<&str> = ["program's time"].into_iter().chain(older_name).chain(["Rust program", "empty program"]).collect();
    title("Programs, from start to end", "program, table, bytes written", &names);
    for (program, inputs) in PROGRAMS.into_iter().zip([formulas, procedures]) {
        let older = older.map(|older| built(older, program));
        let direct = rust.join(format!("direct_{program}"));
        let contenders: Vec<PathBuf> = [built(newer, program)].into_iter().chain(older).chain([direct]).collect();
        for input in inputs {
            program_row(program, input, &contenders, &rust.join("empty"));
        }
    }
    std::env::set_current_dir(here).expect("the working directory is still there");
    std::fs::remove_dir_all(scratch).expect("the scratch folder can be removed");
}

const PROGRAMS: [&str; 2] = ["formula", "procedure"];

fn program_row(program: &str, input: &Input, contenders: &[PathBuf], empty: &Path) {
    std::fs::write(TABLE, &input.file).expect("the scratch folder takes files");
    std::fs::write(ANSWER, &input.answer).expect("the scratch folder takes files");
    let written: Vec<Vec<u8>> = contenders.iter().map(|program| written_by(program)).collect();
    assert!(!written[0].is_empty() && written.iter().all(|other| *other == written[0]), "{program} of {}: they differ", input.name);
    let mut works: Vec<Work> =
        contenders.iter().map(PathBuf::as_path).chain([empty]).map(|program| Box::new(move || run(program)) as Work).collect();
    row(&[program.to_string(), input.name.clone(), grouped(written[0].len())], &figures(&in_turns(Clock::Wall, &mut works)));
}

fn written_by(program: &Path) -> Vec<u8> {
    File::create(WRITTEN).expect("the scratch folder takes files");
    run(program);
    std::fs::read(WRITTEN).expect("what was written can be read")
}

/// A process with the table as its standard input. What it writes goes over what the last one wrote, so that a file does not grow anew each time.
fn run(program: &Path) {
    let input = File::open(TABLE).expect("the table is there");
    let output = File::options().write(true).open(WRITTEN).expect("there is a file for what is written");
    let status = Command::new(program).stdin(input).stdout(output).stderr(Stdio::inherit()).status();
    let status = status.unwrap_or_else(|error| panic!("{}: {error}", program.display()));
    assert!(status.success(), "{}: {status}", program.display());
}
