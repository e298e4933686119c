//! Seeded cases: tables and answers, right ones and damaged ones.

pub mod answers;
pub mod cases;
pub mod damage;
pub mod draft;
pub mod limits;
pub mod tables;

pub use draft::Draft;
