//! Writes random cases as the crate `stored` stores its own: `cases FOLDER SEED TABLES [MOST]`, with the folder of the crate, a seed, how
//! many tables there are with and without an answer, and how many bytes a file may have. `rt try` then holds the program to them without a
//! proof, so that a broken copy of a crate can be tried.

use planner::make::cases::{answer_case, table_case};
use planner::random::Random;
use planner::runs::batch::{add_answer_lines, add_table_lines, Batch};
use std::path::Path;
use std::process::ExitCode;

fn number(place: usize, otherwise: u64) -> u64 {
    std::env::args().nth(place).and_then(|argument| argument.parse().ok()).unwrap_or(otherwise)
}

/// So many tables, of which none has more bytes, nor has an answer.
fn batch(random: &mut Random, tables: usize, most: usize) -> Batch {
    let mut batch = Batch::new(Path::new("stored"));
    let mut added = 0;
    while added < tables && !batch.is_full() {
        let (table, answer) = (table_case(random), answer_case(random));
        if table.table.len() <= most && answer.table.len() <= most && answer.answer.len() <= most {
            add_table_lines(random, &mut batch, &table.table);
            add_answer_lines(random, &mut batch, &answer);
            added += 1;
        }
    }
    batch
}

fn main() -> ExitCode {
    let Some(folder) = std::env::args().nth(1) else {
        eprintln!("cases: a folder is wanted");
        return ExitCode::FAILURE;
    };
    let mut random = Random::new(number(2, 1));
    let batch = batch(&mut random, number(3, 100) as usize, number(4, 100_000) as usize);
    match batch.store(Path::new(&folder)) {
        Ok(()) => ExitCode::SUCCESS,
        Err(error) => {
            eprintln!("cases: {error}");
            ExitCode::FAILURE
        }
    }
}
