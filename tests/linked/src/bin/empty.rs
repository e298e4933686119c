//! A program that does nothing: what a process costs from its start to its end.

fn main() {}
