//! `procedure` by the planner that is written for speed.

use linked::direct::FILE_ROOM;
use std::fs::File;
use std::io::Read;

/// A file that cannot be opened counts as empty.
fn contents(path: &str) -> Vec<u8> {
    let mut bytes = Vec::with_capacity(FILE_ROOM);
    let _ = File::open(path).and_then(|file| file.take(FILE_ROOM as u64).read_to_end(&mut bytes));
    bytes
}

fn main() {
    linked::direct::print_procedure(&contents("table.tab"), &contents("answer.txt"));
}
