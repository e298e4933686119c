//! Public solvers on the formulas of the compiled programs: `solvers PROGRAMS SOLVE WORKSHOPS [SEED] [TABLES]`, with the folder of the
//! programs, the filter `tests/solve`, the folder of workshop tables, a seed and how many random tables are solved.

use planner::random::Random;
use planner::runs::programs::Programs;
use planner::runs::solvers::{compare, Solvers, AS_THEY_COME, FILTERED};
use planner::runs::{scratch, Tally};
use std::path::PathBuf;
use std::process::ExitCode;

fn path(place: usize) -> Option<PathBuf> {
    std::fs::canonicalize(std::env::args().nth(place)?).ok()
}

fn number(place: usize, otherwise: u64) -> u64 {
    std::env::args().nth(place).and_then(|argument| argument.parse().ok()).unwrap_or(otherwise)
}

fn is_on_path(solver: &str) -> bool {
    let path = std::env::var_os("PATH").unwrap_or_default();
    std::env::split_paths(&path).any(|folder| folder.join(solver).is_file())
}

fn main() -> ExitCode {
    let (Some(programs), Some(filter), Some(workshops)) = (path(1), path(2), path(3)) else {
        eprintln!("solvers: the folder of the programs, the filter and the folder of tables are wanted");
        return ExitCode::FAILURE;
    };
    let seed = number(4, 1);
    println!("seed {seed}");
    let scratch = scratch::enter();
    let mut tally = Tally::new(scratch::failed());
    let all = AS_THEY_COME.into_iter().chain(FILTERED);
    let (found, missing): (Vec<&str>, Vec<&str>) = all.partition(|solver| is_on_path(solver));
    for solver in missing {
        tally.case(&format!("{solver} is not installed"), 0, false, &[]);
    }
    let solvers = Solvers { found, filter };
    compare(&mut tally, &mut Random::new(seed), &Programs::of(&programs), &solvers, &workshops, number(5, 100) as usize);
    let _ = std::fs::remove_dir_all(&scratch);
    tally.verdict()
}
