//! The second planner as the two programs: `second formula` reads a table from standard input, `second procedure` reads `table.tab` and
//! `answer.txt` of the working directory; each writes what the program of that name has to write.

use planner::programs::{formula_writes, procedure_writes};
use std::io::{Read, Write};
use std::process::ExitCode;

fn standard_input() -> Vec<u8> {
    let mut bytes = Vec::new();
    std::io::stdin().read_to_end(&mut bytes).expect("standard input can be read");
    bytes
}

/// A file that cannot be opened counts as empty.
fn contents(path: &str) -> Vec<u8> {
    std::fs::read(path).unwrap_or_default()
}

fn main() -> ExitCode {
    let written = match std::env::args().nth(1).as_deref() {
        Some("formula") => formula_writes(&standard_input()),
        Some("procedure") => procedure_writes(&contents("table.tab"), &contents("answer.txt")),
        _ => {
            eprintln!("second: formula or procedure is wanted");
            return ExitCode::FAILURE;
        }
    };
    std::io::stdout().write_all(written.as_bytes()).expect("standard output takes the text");
    ExitCode::SUCCESS
}
