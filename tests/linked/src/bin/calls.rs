//! Holds the linked calls to the second planner: `calls [SEED] [THOUSANDS] [direct]`, with a seed for the cases and how many thousands there are;
//! with the last word those of the planner that is written for speed. Failing cases are saved.

use linked::calls;
use linked::contender::{Calls, Direct};
use linked::library::Linked;
use planner::random::Random;
use planner::runs::{scratch, Tally};
use std::process::ExitCode;
use std::time::Instant;

fn number(place: usize, otherwise: u64) -> u64 {
    std::env::args().nth(place).and_then(|argument| argument.parse().ok()).unwrap_or(otherwise)
}

fn main() -> ExitCode {
    let seed = number(1, 1);
    println!("seed {seed}");
    let mut tally = Tally::new(scratch::failed());
    let begun = Instant::now();
    let held: &dyn Calls = if std::env::args().nth(3).as_deref() == Some("direct") { &Direct } else { &Linked };
    calls::compare(held, &mut tally, &mut Random::new(seed), 1_000 * number(2, 200) as usize);
    println!("{:.1} s", begun.elapsed().as_secs_f64());
    tally.verdict()
}
