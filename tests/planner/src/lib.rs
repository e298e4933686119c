//! A second planner, written from document 01 alone. It shares nothing with the crates that it is compared with: it is plain Rust over
//! vectors, sets and maps of the standard library, and is meant to be read beside the document rather than to be fast.

pub mod answer;
pub mod brute;
pub mod calls;
pub mod dimacs;
pub mod files;
pub mod formula;
pub mod make;
pub mod model;
pub mod outside;
pub mod places;
pub mod procedure;
pub mod programs;
pub mod random;
pub mod reader;
pub mod runs;
pub mod search;
pub mod table;
pub mod text;
pub mod variables;

/// The number of the first question of document 01 that is not met.
#[derive(Debug, Clone, Copy, PartialEq, Eq, PartialOrd, Ord)]
pub struct Refused(pub u32);

/// As every program writes it.
impl std::fmt::Display for Refused {
    fn fmt(&self, text: &mut std::fmt::Formatter) -> std::fmt::Result {
        write!(text, "refused\t{}", self.0)
    }
}

pub type Outcome<T> = Result<T, Refused>;

/// Met, or turned down with the question's number.
pub fn question(number: u32, met: bool) -> Outcome<()> {
    if met {
        Ok(())
    } else {
        Err(Refused(number))
    }
}
