//! The tables of figures, as docs/BENCHMARKS.md has them.

use super::case::{Case, Contender};
use crate::clock::{in_turns, shown, Clock, Times, Work};

/// A table's columns: what a row is about, then the first contender's time, then each other's with the ratio of the first to it.
pub fn title(text: &str, about: &str, contenders: &[&str]) {
    let times = contenders.iter().enumerate().flat_map(|(place, name)| if place == 0 { vec![*name] } else { vec![*name, "ratio"] });
    let columns: Vec<&str> = about.split(", ").chain(times).collect();
    println!("\n### {text}\n\n| {} |\n|{}", columns.join(" | "), "---|".repeat(columns.len()));
}

pub fn row(about: &[String], figures: &[String]) {
    println!("| {} |", [about, figures].concat().join(" | "));
}

/// The contenders' times as `title` has them.
pub fn figures(times: &[Times]) -> Vec<String> {
    let first = &times[0];
    let others = times[1..].iter().flat_map(|other| [shown(other.median()), format!("{:.2}", first.ratio(other))]);
    std::iter::once(spread(first)).chain(others).collect()
}

fn spread(times: &Times) -> String {
    format!("{} ({} to {})", shown(times.median()), shown(times.least()), shown(times.greatest()))
}

/// The row of a case.
pub fn case_row(about: &[String], case: &Case, contenders: &[Contender]) {
    let mut works: Vec<Work> = contenders.iter().map(|contender| case.work(*contender)).collect();
    row(about, &figures(&in_turns(Clock::Thread, &mut works)));
}

pub fn contender_names(contenders: &[Contender]) -> Vec<&'static str> {
    contenders.iter().map(|contender| contender.name).collect()
}

pub fn grouped(number: usize) -> String {
    let digits = number.to_string();
    let groups: Vec<&str> = digits.as_bytes().rchunks(3).rev().map(|group| std::str::from_utf8(group).expect("digits")).collect();
    groups.join(",")
}
