//! `formula` by the planner that is written for speed.

use std::io::Read;

fn main() {
    let mut file = Vec::with_capacity(linked::direct::FILE_ROOM);
    let _ = std::io::stdin().lock().take(linked::direct::FILE_ROOM as u64).read_to_end(&mut file);
    linked::direct::print_formula(&file);
}
