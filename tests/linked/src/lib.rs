//! The crates' seven calls, linked into one process with the second planner: compared with it call by call (`calls`), and measured beside
//! it and beside a planner in Rust that is written for speed (`direct`).

pub mod bench;
pub mod calls;
pub mod clock;
pub mod contender;
pub mod direct;
pub mod library;
