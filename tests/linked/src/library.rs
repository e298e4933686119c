//! The static library under test, and an older one to measure beside it where the build was given one: their C functions, and a safe function
//! over each. No contract of theirs asks anything of the caller, so there is nothing to test before a call; a slice is passed as a pointer and
//! a length in elements, and every number that is lent is the caller's own.

use crate::contender::{Called, Calls, LENT};
use planner::places::Record;

/// A library whose C functions have a prefix before their names.
macro_rules! library {
    ($library:ident, $functions:ident, $prefix:literal) => {
        pub struct $library;

        mod $functions {
            use super::Record;

            extern "C" {
                #[link_name = concat!($prefix, "curdfuture_check")]
                pub fn check(file: *const u8, bytes: usize, nodes: &mut usize, variables: &mut usize, clauses: &mut usize) -> usize;
                #[link_name = concat!($prefix, "curdfuture_build")]
                pub fn build(file: *const u8, bytes: usize, tree: *mut Record, records: usize, nodes: &mut usize) -> usize;
                #[link_name = concat!($prefix, "curdfuture_write_text")]
                pub fn write_text(
                    file: *const u8,
                    bytes: usize,
                    tree: *const Record,
                    records: usize,
                    line: usize,
                    text: *mut u8,
                    room: usize,
                    used: &mut usize,
                    next: &mut usize,
                ) -> usize;
                #[link_name = concat!($prefix, "curdfuture_write_formula")]
                pub fn write_formula(
                    file: *const u8,
                    bytes: usize,
                    line: usize,
                    text: *mut u8,
                    room: usize,
                    used: &mut usize,
                    next: &mut usize,
                ) -> usize;
                #[link_name = concat!($prefix, "curdfuture_take_answer")]
                pub fn take_answer(
                    file: *const u8,
                    bytes: usize,
                    tree: *const Record,
                    records: usize,
                    reply: *const u8,
                    length: usize,
                    values: *mut u8,
                    room: usize,
                    count: &mut usize,
                ) -> usize;
                #[link_name = concat!($prefix, "curdfuture_list_procedure")]
                pub fn list_procedure(
                    file: *const u8,
                    bytes: usize,
                    tree: *const Record,
                    records: usize,
                    values: *const u8,
                    count: usize,
                    listing: *mut u8,
                    room: usize,
                    used: &mut usize,
                ) -> usize;
                #[link_name = concat!($prefix, "curdfuture_list_answer")]
                pub fn list_answer(
                    file: *const u8,
                    bytes: usize,
                    reply: *const u8,
                    length: usize,
                    listing: *mut u8,
                    room: usize,
                    used: &mut usize,
                ) -> usize;
            }
        }

        impl Calls for $library {
            fn check(&self, file: &[u8]) -> Called<3> {
                let [mut nodes, mut variables, mut clauses] = [LENT; 3];
                // SAFETY: the pointer and the length are those of a slice, as the function takes one; the numbers are three locals.
                let question = unsafe { $functions::check(file.as_ptr(), file.len(), &mut nodes, &mut variables, &mut clauses) };
                Called::of(question, [nodes, variables, clauses])
            }

            fn build(&self, file: &[u8], tree: &mut [Record]) -> Called<1> {
                let mut nodes = LENT;
                // SAFETY: as above; `tree` is borrowed for writing, so nothing else refers to it.
                let question = unsafe { $functions::build(file.as_ptr(), file.len(), tree.as_mut_ptr(), tree.len(), &mut nodes) };
                Called::of(question, [nodes])
            }

            fn write_text(&self, file: &[u8], tree: &[Record], line: usize, text: &mut [u8]) -> Called<2> {
                let [mut used, mut next] = [LENT; 2];
                // SAFETY: as above.
                let question = unsafe {
                    $functions::write_text(
                        file.as_ptr(),
                        file.len(),
                        tree.as_ptr(),
                        tree.len(),
                        line,
                        text.as_mut_ptr(),
                        text.len(),
                        &mut used,
                        &mut next,
                    )
                };
                Called::of(question, [used, next])
            }

            fn write_formula(&self, file: &[u8], line: usize, text: &mut [u8]) -> Called<2> {
                let [mut used, mut next] = [LENT; 2];
                // SAFETY: as above.
                let question = unsafe {
                    $functions::write_formula(file.as_ptr(), file.len(), line, text.as_mut_ptr(), text.len(), &mut used, &mut next)
                };
                Called::of(question, [used, next])
            }

            fn take_answer(&self, file: &[u8], tree: &[Record], reply: &[u8], values: &mut [u8]) -> Called<1> {
                let mut count = LENT;
                // SAFETY: as above.
                let question = unsafe {
                    $functions::take_answer(
                        file.as_ptr(),
                        file.len(),
                        tree.as_ptr(),
                        tree.len(),
                        reply.as_ptr(),
                        reply.len(),
                        values.as_mut_ptr(),
                        values.len(),
                        &mut count,
                    )
                };
                Called::of(question, [count])
            }

            fn list_procedure(&self, file: &[u8], tree: &[Record], values: &[u8], listing: &mut [u8]) -> Called<1> {
                let mut used = LENT;
                // SAFETY: as above.
                let question = unsafe {
                    $functions::list_procedure(
                        file.as_ptr(),
                        file.len(),
                        tree.as_ptr(),
                        tree.len(),
                        values.as_ptr(),
                        values.len(),
                        listing.as_mut_ptr(),
                        listing.len(),
                        &mut used,
                    )
                };
                Called::of(question, [used])
            }

            fn list_answer(&self, file: &[u8], reply: &[u8], listing: &mut [u8]) -> Called<1> {
                let mut used = LENT;
                // SAFETY: as above.
                let question = unsafe {
                    $functions::list_answer(
                        file.as_ptr(),
                        file.len(),
                        reply.as_ptr(),
                        reply.len(),
                        listing.as_mut_ptr(),
                        listing.len(),
                        &mut used,
                    )
                };
                Called::of(question, [used])
            }
        }
    };
}

library!(Linked, linked, "");

#[cfg(older)]
library!(Older, older, "older_");

/// The older library, where there is one.
pub fn older() -> Option<&'static dyn Calls> {
    #[cfg(older)]
    return Some(&Older);
    #[cfg(not(older))]
    None
}

#[cfg(test)]
mod tests {
    use super::*;
    use planner::calls::{LISTING_BYTES, TEXT_BYTES, TREE_RECORDS, VALUES};
    use planner::files::{EXAMPLE, EXAMPLE_ANSWER, EXAMPLE_FORMULA, EXAMPLE_LISTING};
    use planner::Refused;

    /// A slice is passed as its pointer and its length, and every value and every field comes back in its own place.
    #[test]
    fn the_example_through_the_linked_calls() {
        let file = EXAMPLE.as_bytes();
        assert_eq!(Linked.check(file).outcome, Ok([2, 5, 9]));
        let sevens = Record::of([7; Record::FIELDS]);
        let mut tree = [sevens; TREE_RECORDS];
        assert_eq!(Linked.build(file, &mut tree).outcome, Ok([2]));
        let serve = Record { depth: 0, parent: 0, children: 1, steps: 0, jobs: 1 };
        let lift = Record { depth: 1, parent: 0, children: 0, steps: 1, jobs: 0 };
        assert_eq!(tree[..3], [serve, lift, sevens]);
        let mut text = [9; TEXT_BYTES];
        assert_eq!(Linked.write_text(file, &tree, 0, &mut text).outcome, Ok([EXAMPLE_FORMULA.len(), 10]));
        assert_eq!(text[..EXAMPLE_FORMULA.len()], *EXAMPLE_FORMULA.as_bytes());
        let mut values = [9; VALUES];
        assert_eq!(Linked.take_answer(file, &tree, EXAMPLE_ANSWER.as_bytes(), &mut values).outcome, Ok([5]));
        assert_eq!(values[..6], [1, 1, 1, 0, 1, 9]);
        let mut listing = [0; LISTING_BYTES];
        assert_eq!(Linked.list_procedure(file, &tree, &values, &mut listing).outcome, Ok([EXAMPLE_LISTING.len()]));
        assert_eq!(listing[..EXAMPLE_LISTING.len()], *EXAMPLE_LISTING.as_bytes());
        assert_eq!(Linked.check(b""), Called { outcome: Err(Refused(2)), kept: true });
    }

    #[test]
    fn the_example_without_a_tree() {
        let file = EXAMPLE.as_bytes();
        let mut text = [9; TEXT_BYTES];
        assert_eq!(Linked.write_formula(file, 1, &mut text).outcome, Ok([EXAMPLE_FORMULA.len() - 10, 10]));
        assert_eq!(text[..EXAMPLE_FORMULA.len() - 10], EXAMPLE_FORMULA.as_bytes()[10..]);
        let mut listing = [0; LISTING_BYTES];
        assert_eq!(Linked.list_answer(file, EXAMPLE_ANSWER.as_bytes(), &mut listing).outcome, Ok([EXAMPLE_LISTING.len()]));
        assert_eq!(listing[..EXAMPLE_LISTING.len()], *EXAMPLE_LISTING.as_bytes());
        assert_eq!(Linked.write_formula(file, 10, &mut text), Called { outcome: Err(Refused(11)), kept: true });
        assert_eq!(Linked.list_answer(file, b"", &mut listing), Called { outcome: Err(Refused(12)), kept: true });
    }
}
