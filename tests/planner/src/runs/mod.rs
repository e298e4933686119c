//! The runs: cases through the compiled programs, the calls and public solvers, counted.

pub mod batch;
pub mod edits;
pub mod kinds;
pub mod models;
pub mod programs;
pub mod scratch;
pub mod solvers;
pub mod streams;
pub mod tally;
pub mod witness;

pub use tally::Tally;
