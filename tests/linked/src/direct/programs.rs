//! What the two programs write, to standard output.

use super::{list_answer, planned, text, Plan};
use planner::calls::LISTING_BYTES;
use planner::{Outcome, Refused};
use std::io::Write;

/// One byte more than a file may have, so that a longer one is noticed.
pub const FILE_ROOM: usize = 65_537;

/// A part of a formula that stays in the processor's cache.
const PART: usize = 1 << 18;

pub fn print_formula(file: &[u8]) {
    match planned(file) {
        Ok(plan) => print_parts(&plan),
        Err(refused) => print(refused_line(refused).as_bytes()),
    }
}

/// The table is read once for all parts.
fn print_parts(plan: &Plan) {
    let mut part = vec![0; PART];
    let mut line = 0;
    while let Ok([used, next]) = text::write(plan, line, &mut part) {
        print(&part[..used]);
        line = next;
    }
}

pub fn print_procedure(file: &[u8], reply: &[u8]) {
    let mut listing = vec![0; LISTING_BYTES];
    let listed: Outcome<usize> = list_answer(file, reply, &mut listing);
    match listed {
        Ok(used) => print(&listing[..used]),
        Err(refused) => print(refused_line(refused).as_bytes()),
    }
}

fn refused_line(refused: Refused) -> String {
    format!("{refused}\n")
}

fn print(bytes: &[u8]) {
    if std::io::stdout().lock().write_all(bytes).is_err() {
        eprintln!("the output could not be written whole");
    }
}
