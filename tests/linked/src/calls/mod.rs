//! Cases through seven calls, those of the library or of the planner that is written for speed, each held to the second planner's call with the
//! same contents in every buffer: what comes back, and what every buffer, with a margin on both sides of the part that was lent, and all that was
//! lent for reading holds afterwards.

mod held;
mod lent;

use crate::contender::{Calls, Second};
use held::{Call, Lent, MARGIN};
use lent::{edge_trees, listing_length, own_tree, random_records, text_lengths, trees, values_given, values_lent, Subject, LENGTHS};
use planner::calls::{LISTING_BYTES, TEXT_BYTES, TREE_RECORDS, VALUES};
use planner::files::{EXAMPLE, EXAMPLE_ANSWER};
use planner::make::cases::{answer_case, at_limit, each_question, past_limit, table_case, AnswerCase};
use planner::make::limits::LIMITS;
use planner::places::Record;
use planner::random::Random;
use planner::runs::Tally;

/// So many cases and a few more.
pub fn compare(calls: &dyn Calls, tally: &mut Tally, random: &mut Random, cases: usize) {
    let before = tally.passed + tally.failed;
    let mut comparison = Comparison { calls, tally, random, other: Vec::new() };
    comparison.edges();
    while comparison.tally.passed + comparison.tally.failed - before < cases {
        let case = table_case(comparison.random);
        comparison.table_calls(&Subject::of(case.table));
        let case = answer_case(comparison.random);
        comparison.answer_calls(&case);
    }
    tally.print_given("the seven calls");
    for (call, numbers) in NUMBERS {
        tally.gives(call, numbers);
    }
}

/// The numbers that each call may return, as include/curdfuture.h has them.
const NUMBERS: [(&str, &[u32]); 7] = [
    ("check", &[0, 2, 3, 4, 5, 6, 7, 8, 9]),
    ("build", &[0, 1, 2, 3, 4, 5, 6, 7, 8, 9]),
    ("write_text", &[0, 1, 2, 3, 4, 5, 6, 7, 8, 9, 10, 11]),
    ("write_formula", &[0, 1, 2, 3, 4, 5, 6, 7, 8, 9, 11]),
    ("take_answer", &[0, 1, 2, 3, 4, 5, 6, 7, 8, 9, 10, 12, 13, 14, 15]),
    ("list_procedure", &[0, 1, 2, 3, 4, 5, 6, 7, 8, 9, 10, 14, 15]),
    ("list_answer", &[0, 1, 2, 3, 4, 5, 6, 7, 8, 9, 12, 13, 14, 15]),
];

/// The calls under test, and the tree of the last table that was accepted.
struct Comparison<'a> {
    calls: &'a dyn Calls,
    tally: &'a mut Tally,
    random: &'a mut Random,
    other: Vec<Record>,
}

impl Comparison<'_> {
    /// Each question, each limit, and what is lent at every length.
    fn edges(&mut self) {
        for case in each_question() {
            self.question_calls(&case);
        }
        let example = Subject::of(EXAMPLE.as_bytes().to_vec());
        self.tree_calls(&example, EXAMPLE_ANSWER.as_bytes());
        self.length_calls(&example, EXAMPLE_ANSWER.as_bytes());
        for limit in &LIMITS {
            for case in [at_limit(self.random, limit), past_limit(self.random, limit)] {
                let subject = Subject::of(case.table);
                self.table_calls(&subject);
                if subject.tree.len() == TREE_RECORDS {
                    self.tree_calls(&subject, b"");
                }
            }
        }
    }

    /// Every call with as much as it wants, and values that are right, no model, and none.
    fn question_calls(&mut self, case: &AnswerCase) {
        let (subject, reply) = (Subject::of(case.table.clone()), &case.answer);
        let tree = own_tree(self.random, &subject, TREE_RECORDS);
        self.check_call(&subject);
        self.build_call(&subject, TREE_RECORDS);
        for line in [0, usize::MAX] {
            self.text_call(&subject, &tree, line, TEXT_BYTES);
            self.formula_call(&subject, line, TEXT_BYTES);
        }
        self.take_call(&subject, &tree, reply, VALUES);
        for values in [values_given(&subject, reply), vec![0; VALUES], vec![2; VALUES]] {
            self.list_call(&subject, &tree, &values, LISTING_BYTES);
        }
        self.answer_call(&subject, reply, LISTING_BYTES);
    }

    /// Every length and every edge of the tree through each call that is lent it.
    fn tree_calls(&mut self, subject: &Subject, reply: &[u8]) {
        for records in LENGTHS {
            self.build_call(subject, records);
        }
        let values = values_given(subject, reply);
        for tree in edge_trees(self.random, subject) {
            self.text_call(subject, &tree, 0, TEXT_BYTES);
            self.take_call(subject, &tree, reply, VALUES);
            self.list_call(subject, &tree, &values, LISTING_BYTES);
        }
    }

    /// The calls without a tree, lent as little as they want and one byte less and more.
    fn length_calls(&mut self, subject: &Subject, reply: &[u8]) {
        for line in &subject.lines {
            for room in [0, TEXT_BYTES - 1, TEXT_BYTES, TEXT_BYTES + 1] {
                self.formula_call(subject, *line, room);
            }
        }
        for room in [0, LISTING_BYTES - 1, LISTING_BYTES, LISTING_BYTES + 1] {
            for answer in [reply, b""] {
                self.answer_call(subject, answer, room);
            }
        }
    }

    /// Check, build and text calls on one table.
    fn table_calls(&mut self, subject: &Subject) {
        self.check_call(subject);
        for records in [TREE_RECORDS, *self.random.pick(&LENGTHS)] {
            self.build_call(subject, records);
        }
        for tree in trees(self.random, subject, &self.other) {
            let line = *self.random.pick(&subject.lines);
            for length in text_lengths(self.random, subject, line) {
                self.text_call(subject, &tree, line, length);
            }
        }
        let line = *self.random.pick(&subject.lines);
        for length in text_lengths(self.random, subject, line) {
            self.formula_call(subject, line, length);
        }
        if !subject.tree.is_empty() {
            self.other.clone_from(&subject.tree);
        }
    }

    /// The calls that take the answer, list it, or list values, with trees, buffers and values of every kind.
    fn answer_calls(&mut self, case: &AnswerCase) {
        let subject = Subject::of(case.table.clone());
        for tree in trees(self.random, &subject, &self.other) {
            let room = *self.random.pick(&[VALUES, VALUES, VALUES, VALUES + 1, VALUES + 300, VALUES - 1, 0]);
            self.take_call(&subject, &tree, &case.answer, room);
            let values = values_lent(self.random, &subject, &case.answer);
            let room = listing_length(self.random);
            self.list_call(&subject, &tree, &values, room);
            let room = listing_length(self.random);
            self.answer_call(&subject, &case.answer, room);
        }
        if !subject.tree.is_empty() {
            self.other.clone_from(&subject.tree);
        }
    }

    // One call, lent so many records or bytes for writing

    fn check_call(&mut self, subject: &Subject) {
        let (calls, file) = (self.calls, &subject.file);
        let call = Call { name: "check", file, numbers: &[], lent: &[] };
        call.hold::<u8, 3>(self.tally, &[0; 2 * MARGIN], |_| calls.check(file), |_| Second.check(file).outcome);
    }

    fn build_call(&mut self, subject: &Subject, records: usize) {
        let (calls, file) = (self.calls, &subject.file);
        let lent = random_records(self.random, records + 2 * MARGIN);
        let call = Call { name: "build", file, numbers: &[("records", records)], lent: &[] };
        call.hold(self.tally, &lent, |tree| calls.build(file, tree), |tree| Second.build(file, tree).outcome);
    }

    fn text_call(&mut self, subject: &Subject, tree: &[Record], line: usize, room: usize) {
        let (calls, file) = (self.calls, &subject.file);
        let lent = random_bytes(self.random, room + 2 * MARGIN);
        let numbers = [("records", tree.len()), ("line", line), ("bytes of text", room)];
        let call = Call { name: "write_text", file, numbers: &numbers, lent: &[("tree", Lent::Records(tree))] };
        call.hold(
            self.tally,
            &lent,
            |text| calls.write_text(file, tree, line, text),
            |text| Second.write_text(file, tree, line, text).outcome,
        );
    }

    fn formula_call(&mut self, subject: &Subject, line: usize, room: usize) {
        let (calls, file) = (self.calls, &subject.file);
        let lent = random_bytes(self.random, room + 2 * MARGIN);
        let call = Call { name: "write_formula", file, numbers: &[("line", line), ("bytes of text", room)], lent: &[] };
        call.hold(self.tally, &lent, |text| calls.write_formula(file, line, text), |text| Second.write_formula(file, line, text).outcome);
    }

    fn take_call(&mut self, subject: &Subject, tree: &[Record], reply: &[u8], room: usize) {
        let (calls, file) = (self.calls, &subject.file);
        let lent = random_bytes(self.random, room + 2 * MARGIN);
        let numbers = [("records", tree.len()), ("values", room)];
        let answer = [("tree", Lent::Records(tree)), ("answer.txt", Lent::Bytes(reply))];
        let call = Call { name: "take_answer", file, numbers: &numbers, lent: &answer };
        call.hold(
            self.tally,
            &lent,
            |values| calls.take_answer(file, tree, reply, values),
            |values| Second.take_answer(file, tree, reply, values).outcome,
        );
    }

    fn list_call(&mut self, subject: &Subject, tree: &[Record], values: &[u8], room: usize) {
        let (calls, file) = (self.calls, &subject.file);
        let lent = random_bytes(self.random, room + 2 * MARGIN);
        let numbers = [("records", tree.len()), ("values", values.len()), ("bytes of the listing", room)];
        let lent_values = [("tree", Lent::Records(tree)), ("values", Lent::Bytes(values))];
        let call = Call { name: "list_procedure", file, numbers: &numbers, lent: &lent_values };
        call.hold(
            self.tally,
            &lent,
            |listing| calls.list_procedure(file, tree, values, listing),
            |listing| Second.list_procedure(file, tree, values, listing).outcome,
        );
    }

    fn answer_call(&mut self, subject: &Subject, reply: &[u8], room: usize) {
        let (calls, file) = (self.calls, &subject.file);
        let lent = random_bytes(self.random, room + 2 * MARGIN);
        let numbers = [("bytes of the listing", room)];
        let call = Call { name: "list_answer", file, numbers: &numbers, lent: &[("answer.txt", Lent::Bytes(reply))] };
        call.hold(
            self.tally,
            &lent,
            |listing| calls.list_answer(file, reply, listing),
            |listing| Second.list_answer(file, reply, listing).outcome,
        );
    }
}

fn random_bytes(random: &mut Random, count: usize) -> Vec<u8> {
    let mut bytes: Vec<u8> = (0..count.div_ceil(8)).flat_map(|_| random.word().to_le_bytes()).collect();
    bytes.truncate(count);
    bytes
}
