//! The text of a formula.

use super::clauses;
use super::counts;
use super::numerals::{Literal, END_BYTES};
use super::places::Plan;
use planner::{question, Outcome};
use std::io::Write;
use std::ops::Range;

/// No line is longer.
const LONGEST_LINE: usize = 1_024;

/// A literal is stored as so many bytes, of which those behind its own are written over.
const STORE: usize = 8;

/// The lines from `first` on, as many as fit; the bytes used and the next line. Bytes behind those used stay as they were.
pub fn write(plan: &Plan, first: usize, text: &mut [u8]) -> Outcome<[usize; 2]> {
    let last = counts::all(plan);
    question(11, first <= last)?;
    let quick_end = text.len().saturating_sub(LONGEST_LINE + STORE);
    let spare = [0; LONGEST_LINE + STORE];
    let mut lines = Lines { text, at: 0, quick_end, spare, skip: first.saturating_sub(1), next: first, last };
    if first == 0 {
        lines.header(plan.variables);
    }
    clauses::write(plan, &mut lines);
    Ok([lines.at, lines.next])
}

pub struct Lines<'a> {
    text: &'a mut [u8],
    at: usize,
    /// Where a line ends before this, the next one fits for sure, and takes what was stored too much.
    quick_end: usize,
    /// Where a line is put together that may not fit.
    spare: [u8; LONGEST_LINE + STORE],
    /// How many clauses are yet to be skipped.
    skip: usize,
    next: usize,
    last: usize,
}

impl Lines<'_> {
    fn header(&mut self, variables: usize) {
        let mut rest = &mut self.text[..];
        let length = rest.len();
        writeln!(rest, "p cnf {variables} {}", self.last).expect("a call wants to be lent more");
        self.at = length - rest.len();
        self.next = 1;
    }

    /// So many clauses at once, where all of them are to be skipped.
    pub fn skips(&mut self, count: impl FnOnce() -> usize) -> bool {
        let rest = if self.skip == 0 { None } else { self.skip.checked_sub(count()) };
        self.skip = rest.unwrap_or(self.skip);
        rest.is_some()
    }

    /// A row of clauses of at most so many bytes each, made by their numbers in the row. False where one does not fit.
    #[inline(always)]
    pub fn row(&mut self, count: usize, most_bytes: usize, make: impl Fn(&mut Out, usize)) -> bool {
        let first = self.skip.min(count);
        self.skip -= first;
        if self.has_room(count - first, most_bytes) {
            self.put(first, count, &make);
            return true;
        }
        (first..count).all(|number| {
            let quick = self.has_room(1, most_bytes);
            if quick {
                self.put(number, number + 1, &make);
            }
            quick || self.put_exactly(number, &make)
        })
    }

    /// One clause.
    #[inline(always)]
    pub fn clause(&mut self, most_bytes: usize, make: impl Fn(&mut Out)) -> bool {
        self.row(1, most_bytes, |out, _| make(out))
    }

    /// Room for the clauses, and for one more that there is.
    #[inline]
    fn has_room(&self, clauses: usize, most_bytes: usize) -> bool {
        self.at + clauses * most_bytes <= self.quick_end && self.next + clauses <= self.last
    }

    #[inline(always)]
    fn put(&mut self, first: usize, end: usize, make: &impl Fn(&mut Out, usize)) {
        let mut out = Out::new(self.text, self.at);
        (first..end).for_each(|number| make(&mut out, number));
        self.at = out.at;
        self.next += end - first;
    }

    /// One clause, where it fits, and no byte more.
    #[cold]
    #[inline(never)]
    fn put_exactly(&mut self, number: usize, make: &impl Fn(&mut Out, usize)) -> bool {
        let mut out = Out::new(&mut self.spare, 0);
        make(&mut out, number);
        let length = out.at;
        let Some(room) = self.text.get_mut(self.at..self.at + length) else { return false };
        room.copy_from_slice(&self.spare[..length]);
        self.at += length;
        self.next += 1;
        true
    }
}

/// Where a clause is put together. A store goes past what is written.
pub struct Out<'a> {
    text: &'a mut [u8],
    at: usize,
    /// The last place for a store.
    last: usize,
}

impl<'a> Out<'a> {
    /// The text is as long as a store or longer.
    fn new(text: &'a mut [u8], at: usize) -> Out<'a> {
        let last = text.len() - STORE;
        Out { text, at, last }
    }

    #[inline(always)]
    pub fn put(&mut self, literal: Literal) {
        self.store(self.at, literal.bytes);
        self.at += literal.length;
    }

    #[inline(always)]
    fn store(&mut self, at: usize, bytes: u64) {
        assert!(at <= self.last);
        // SAFETY: eight bytes are left from there on, since `last` is eight less than the text's length.
        unsafe { self.text.as_mut_ptr().add(at).cast::<u64>().write_unaligned(bytes.to_le()) };
    }

    /// Behind a literal, which was stored with the end.
    #[inline(always)]
    pub fn end(&mut self) {
        self.at += END_BYTES;
    }

    #[inline(always)]
    pub fn put_prefix(&mut self, prefix: &Prefix) {
        match prefix.length {
            0..=STORE => self.store(self.at, prefix.first),
            length => self.text[self.at..self.at + length].copy_from_slice(&prefix.text[..length]),
        }
        self.at += prefix.length;
    }
}

/// The literals of consecutive variables, for clauses that begin with all of them.
pub struct Prefix {
    text: [u8; LONGEST_LINE],
    length: usize,
    /// The first bytes as a word.
    first: u64,
}

impl Prefix {
    pub fn new() -> Prefix {
        Prefix { text: [0; LONGEST_LINE], length: 0, first: 0 }
    }

    /// How many bytes they have.
    pub fn fill(&mut self, variables: Range<u32>) -> usize {
        let mut out = Out::new(&mut self.text, 0);
        variables.for_each(|variable| out.put(Literal::is(variable)));
        self.length = out.at;
        self.first = u64::from_le_bytes(*self.text.first_chunk().expect("a prefix has room for a word"));
        self.length
    }
}
