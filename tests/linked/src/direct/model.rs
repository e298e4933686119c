//! Whether values satisfy every clause, by whole rows: values are bits, and those of a node's steps or of a boundary's facts are a word.

use super::places::{members, methods_in, Node, Plan, MOST_VARIABLES};
use planner::{question, Outcome};

/// One more, so that a word's next one is there.
const WORDS: usize = MOST_VARIABLES.div_ceil(64) + 1;

/// The values of all variables, a bit each, that of variable 1 first.
pub struct Model {
    words: [u64; WORDS],
}

/// What is true at a node.
pub enum True {
    None,
    Step(usize),
    /// The method, whose job is true as well.
    Method(usize),
}

impl Model {
    /// Of values that are 0 or 1, where they satisfy every clause (15).
    pub fn of(plan: &Plan, values: &[u8]) -> Outcome<Model> {
        let mut words = [0; WORDS];
        for (word, values) in words.iter_mut().zip(values.chunks(64)) {
            *word = packed(values);
        }
        let model = Model { words };
        question(15, model.satisfies(plan))?;
        Ok(model)
    }

    /// The values of so many variables, at most 64, from one on.
    #[inline]
    fn bits(&self, first: u32, count: u32) -> u64 {
        let (word, shift) = ((first as usize - 1) / 64, (first - 1) % 64);
        let all = self.words[word] >> shift | self.words[word + 1] << 1 << (63 - shift);
        all & u64::MAX.checked_shr(64 - count).unwrap_or(0)
    }

    fn is_true(&self, variable: u32) -> bool {
        self.bits(variable, 1) == 1
    }

    fn has_no_task(&self, node: &Node) -> bool {
        self.bits(node.first, node.step_count) | self.bits(node.first + node.step_count, node.job_count) == 0
    }

    fn satisfies(&self, plan: &Plan) -> bool {
        self.is_true(plan.nodes[0].job(plan.table.root))
            && plan.nodes.iter().all(|node| self.of_node(plan, node))
            && self.bits(plan.first_fact, plan.table.facts as u32) == plan.table.start
            && plan.slots().zip(0..).all(|(node, number)| self.of_slot(plan, node, number))
    }

    /// Rule 2: (a) to (d) say what may be true, the others what is then true below.
    fn of_node(&self, plan: &Plan, node: &Node) -> bool {
        match self.at(plan, node) {
            None => false,
            Some(_) if !node.inner => true,
            Some(True::None) => plan.children(node).all(|child| self.has_no_task(child)),
            Some(True::Step(step)) => plan.children(node).enumerate().all(|(place, child)| match place {
                0 => self.is_true(child.step(step)),
                _ => self.has_no_task(child),
            }),
            Some(True::Method(method)) => {
                let body = plan.table.methods[method].body();
                plan.children(node).enumerate().all(|(place, child)| match body.get(place) {
                    Some(task) => child.task(*task).is_some_and(|variable| self.is_true(variable)),
                    None => self.has_no_task(child),
                })
            }
        }
    }

    /// What is true at the node, where (a) to (d) are satisfied.
    pub fn at(&self, plan: &Plan, node: &Node) -> Option<True> {
        let steps = self.bits(node.first, node.step_count);
        let jobs = self.bits(node.first + node.step_count, node.job_count);
        let methods = self.bits(node.first_method(), node.method_count.min(64));
        let more = self.bits(node.first_method() + node.method_count.min(64), node.method_count.saturating_sub(64));
        let methods = u128::from(methods) | u128::from(more) << 64;
        if steps | jobs == 0 && methods == 0 {
            return Some(True::None);
        }
        if jobs == 0 {
            return (steps.is_power_of_two() && methods == 0).then(|| True::Step(nth(node.steps, steps)));
        }
        if !(steps == 0 && jobs.is_power_of_two() && methods.is_power_of_two()) {
            return None;
        }
        let method = methods_in(plan.methods(node)).nth(methods.trailing_zeros() as usize)?;
        (usize::from(plan.table.methods[method].job) == nth(node.jobs, jobs)).then_some(True::Method(method))
    }

    /// Rule 4, where no two steps are true: a step that is can be done, and each fact is as it was or as the step makes it.
    fn of_slot(&self, plan: &Plan, node: &Node, number: u32) -> bool {
        let facts = plan.table.facts as u32;
        let first = plan.first_fact + number * facts;
        let (before, after) = (self.bits(first, facts), self.bits(first + facts, facts));
        match self.bits(node.first, node.step_count) {
            0 => after == before,
            steps => {
                let step = &plan.table.steps[nth(node.steps, steps)];
                step.needs & !before == 0 && after == before & !step.clears | step.sets
            }
        }
    }
}

/// The member of a set at the place of the one bit.
fn nth(set: u64, bit: u64) -> usize {
    members(set).nth(bit.trailing_zeros() as usize).expect("the set has as many members as there are bits")
}

/// At most 64 values, each 0 or 1, as bits.
fn packed(values: &[u8]) -> u64 {
    let mut bytes = [0; 64];
    bytes[..values.len()].copy_from_slice(values);
    bytes.chunks_exact(8).rev().fold(0, |word, eight| {
        let eight = u64::from_le_bytes(eight.try_into().expect("eight bytes"));
        // Value i comes to the highest byte's bit i.
        word << 8 | eight.wrapping_mul(0x0102_0408_1020_4080) >> 56
    })
}
