//! The listing of a model's procedure: a line for each true job and for each true step at a slot, in node order.

use super::model::{Model, True};
use super::numerals::digits;
use super::places::Plan;

/// The bytes used. Bytes behind them stay as they were.
pub fn write(plan: &Plan, model: &Model, listing: &mut [u8]) -> usize {
    let mut out = Out { listing, at: 0 };
    let mut done = 0;
    for node in &plan.nodes {
        match model.at(plan, node) {
            Some(True::Method(method)) => {
                let job = usize::from(plan.table.methods[method].job);
                out.line(b"J\t", usize::from(node.depth), plan.table.jobs[job].name);
                out.put(b"\t");
                out.number(method);
                out.put(b"\n");
            }
            // At an inner node a step is handed down, and listed at a slot.
            Some(True::Step(step)) if !node.inner => {
                done += 1;
                out.line(b"S\t", done, plan.table.steps[step].name);
                out.put(b"\n");
            }
            _ => (),
        }
    }
    out.at
}

struct Out<'a> {
    listing: &'a mut [u8],
    at: usize,
}

impl Out<'_> {
    fn line(&mut self, letter: &[u8], number: usize, name: &[u8]) {
        self.put(letter);
        self.number(number);
        self.put(b"\t");
        self.put(name);
    }

    fn number(&mut self, number: usize) {
        let (bytes, length) = digits(number);
        self.put(&bytes[..length]);
    }

    #[inline]
    fn put(&mut self, bytes: &[u8]) {
        self.listing[self.at..self.at + bytes.len()].copy_from_slice(bytes);
        self.at += bytes.len();
    }
}
