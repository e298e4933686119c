//! One call on one input, by whichever contender.

use super::input::Input;
use crate::clock::Work;
use crate::contender::{Calls, Direct, Second};
use crate::library::{older, Linked};
use planner::calls::{LISTING_BYTES, TREE_RECORDS, VALUES};
use planner::places::Record;
use planner::Outcome;
use std::hint::black_box;

/// As long as the longest text measured.
pub const LARGE_TEXT: usize = 4 << 20;

#[derive(Clone, Copy, PartialEq)]
pub enum Call {
    Check,
    Build,
    /// From a line on, lent so many bytes.
    WriteText(usize, usize),
    WriteFormula(usize, usize),
    TakeAnswer,
    ListProcedure,
    ListAnswer,
}

impl Call {
    pub const WHOLE_TEXT: Call = Call::WriteText(0, LARGE_TEXT);
    pub const WHOLE_FORMULA: Call = Call::WriteFormula(0, LARGE_TEXT);

    pub fn name(self) -> &'static str {
        match self {
            Call::Check => "check",
            Call::Build => "build",
            Call::WriteText(..) => "write_text",
            Call::WriteFormula(..) => "write_formula",
            Call::TakeAnswer => "take_answer",
            Call::ListProcedure => "list_procedure",
            Call::ListAnswer => "list_answer",
        }
    }
}

#[derive(Clone, Copy)]
pub struct Contender {
    pub name: &'static str,
    pub calls: &'static dyn Calls,
}

pub const LIBRARY: Contender = Contender { name: "library", calls: &Linked };
pub const DIRECT: Contender = Contender { name: "direct Rust", calls: &Direct };
pub const SECOND: Contender = Contender { name: "second planner", calls: &Second };

/// The library, the older one where there is one, and direct Rust.
pub fn fast() -> Vec<Contender> {
    let older = older().map(|calls| Contender { name: "older library", calls });
    [LIBRARY].into_iter().chain(older).chain([DIRECT]).collect()
}

/// These and the second planner.
pub fn all() -> Vec<Contender> {
    fast().into_iter().chain([SECOND]).collect()
}

/// What a call is lent for writing.
#[derive(PartialEq)]
pub struct Lent {
    tree: Vec<Record>,
    bytes: Vec<u8>,
}

pub struct Case<'a> {
    pub call: Call,
    pub input: &'a Input,
}

impl Case<'_> {
    /// As a command names it.
    pub fn name(&self) -> String {
        format!("{}:{}", self.call.name(), self.input.name)
    }

    pub fn lent(&self) -> Lent {
        let (records, bytes) = match self.call {
            Call::Check => (0, 0),
            Call::Build => (TREE_RECORDS, 0),
            Call::WriteText(_, room) | Call::WriteFormula(_, room) => (0, room),
            Call::TakeAnswer => (0, VALUES),
            Call::ListProcedure | Call::ListAnswer => (0, LISTING_BYTES),
        };
        Lent { tree: vec![Record::of([7; Record::FIELDS]); records], bytes: vec![7; bytes] }
    }

    /// The outcome with the call's values, up to three.
    pub fn run(&self, calls: &dyn Calls, lent: &mut Lent) -> Outcome<[usize; 3]> {
        let Input { file, answer, tree, values, .. } = black_box(self.input);
        match self.call {
            Call::Check => calls.check(file).outcome,
            Call::Build => calls.build(file, &mut lent.tree).outcome.map(|[nodes]| [nodes, 0, 0]),
            Call::WriteText(line, _) => calls.write_text(file, tree, line, &mut lent.bytes).outcome.map(|[used, next]| [used, next, 0]),
            Call::WriteFormula(line, _) => calls.write_formula(file, line, &mut lent.bytes).outcome.map(|[used, next]| [used, next, 0]),
            Call::TakeAnswer => calls.take_answer(file, tree, answer, &mut lent.bytes).outcome.map(|[count]| [count, 0, 0]),
            Call::ListProcedure => calls.list_procedure(file, tree, values, &mut lent.bytes).outcome.map(|[used]| [used, 0, 0]),
            Call::ListAnswer => calls.list_answer(file, answer, &mut lent.bytes).outcome.map(|[used]| [used, 0, 0]),
        }
    }

    /// What every contender comes to, with the same contents in what it was lent.
    pub fn agreed(&self, contenders: &[Contender]) -> Outcome<[usize; 3]> {
        let came = |calls: &dyn Calls| {
            let mut lent = self.lent();
            (self.run(calls, &mut lent), lent)
        };
        let wanted = came(SECOND.calls);
        for contender in contenders {
            assert!(came(contender.calls) == wanted, "{}: {} differs", self.name(), contender.name);
        }
        wanted.0
    }

    pub fn work(&self, contender: Contender) -> Work<'_> {
        let mut lent = self.lent();
        Box::new(move || _ = black_box(self.run(black_box(contender.calls), &mut lent)))
    }
}
