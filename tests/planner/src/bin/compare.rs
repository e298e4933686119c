//! Holds the compiled programs to the second planner: `compare FOLDER [SEED] [HUNDREDS]`, with the folder of the programs, a seed for the
//! cases, and how many hundreds of cases go through processes of their own. Five times as many go through what is below the programs, and
//! half as many tables are taken for models and trees. Failing cases are saved.

use planner::random::Random;
use planner::runs::programs::Programs;
use planner::runs::{batch, models, programs, scratch, streams, Tally};
use std::process::ExitCode;
use std::time::Instant;

fn number(place: usize, otherwise: u64) -> u64 {
    std::env::args().nth(place).and_then(|argument| argument.parse().ok()).unwrap_or(otherwise)
}

fn main() -> ExitCode {
    let Some(folder) = std::env::args().nth(1) else {
        eprintln!("compare: the folder of the compiled programs is wanted");
        return ExitCode::FAILURE;
    };
    let folder = std::fs::canonicalize(&folder).expect("the folder of the programs is there");
    let seed = number(2, 1);
    let cases = 100 * number(3, 200) as usize;
    println!("seed {seed}");
    let scratch = scratch::enter();
    let mut tally = Tally::new(scratch::failed());
    let programs = Programs::of(&folder);
    let mut random = Random::new(seed);
    let begun = Instant::now();
    programs::limits(&mut tally, &mut random, &programs);
    programs::compare(&mut tally, &mut random, &programs, cases);
    streams::compare(&mut tally, &mut random, &programs);
    batch::compare(&mut tally, &mut random, &programs, 5 * cases);
    models::compare(&mut tally, &mut random, &programs, cases / 2);
    println!("{:.1} s", begun.elapsed().as_secs_f64());
    let _ = std::fs::remove_dir_all(&scratch);
    tally.verdict()
}
