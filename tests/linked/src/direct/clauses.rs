//! The clauses in document 01's order, row by row, each written as it is made.

use super::counts;
use super::numerals::{Literal, END_BYTES, MOST_BYTES};
use super::places::{members, methods_in, Node, Plan};
use super::table::{MOST_FACTS, MOST_JOBS, MOST_METHODS, MOST_STEPS};
use super::text::{Lines, Prefix};

const UNIT: usize = MOST_BYTES + END_BYTES;
const PAIR: usize = 2 * MOST_BYTES + END_BYTES;

/// All clauses behind those that are skipped, as far as they fit.
pub fn write(plan: &Plan, lines: &mut Lines) {
    let maker = Maker {
        plan,
        lines,
        step_variables: [0; MOST_STEPS],
        job_variables: [0; MOST_JOBS],
        method_variables: [0; MOST_METHODS],
        prefix: Prefix::new(),
    };
    maker.all();
}

/// A part is true where all of its clauses fitted. The variables are those of the node at hand; what stands at other numbers is of earlier ones.
struct Maker<'a, 'b> {
    plan: &'a Plan<'a>,
    lines: &'a mut Lines<'b>,
    step_variables: [u32; MOST_STEPS],
    job_variables: [u32; MOST_JOBS],
    method_variables: [u32; MOST_METHODS],
    prefix: Prefix,
}

fn literal(variable: u32, is: bool) -> Literal {
    if is {
        Literal::is(variable)
    } else {
        Literal::not(variable)
    }
}

impl Maker<'_, '_> {
    fn all(mut self) -> bool {
        let plan = self.plan;
        self.unit(Literal::is(plan.nodes[0].job(plan.table.root)))
            && plan.nodes.iter().all(|node| self.lines.skips(|| counts::of_node(plan, node)) || self.of_node(node))
            && self.start()
            && self.of_slots()
    }

    #[inline(always)]
    fn unit(&mut self, one: Literal) -> bool {
        self.lines.clause(UNIT, |out| {
            out.put(one);
            out.end();
        })
    }

    #[inline(always)]
    fn pair(&mut self, one: Literal, two: Literal) -> bool {
        self.lines.clause(PAIR, |out| {
            out.put(one);
            out.put(two);
            out.end();
        })
    }

    /// The variable with each of so many from `first` on, both negated.
    #[inline(always)]
    fn excludes(&mut self, variable: u32, first: u32, count: u32) -> bool {
        let one = Literal::not(variable);
        self.lines.row(count as usize, PAIR, |out, number| {
            out.put(one);
            out.put(Literal::not(first + number as u32));
            out.end();
        })
    }

    fn pairs(&mut self, first: u32, count: u32) -> bool {
        (1..count).all(|two| self.excludes(first + two - 1, first + two, count - two))
    }

    // Rule 2

    fn of_node(&mut self, node: &Node) -> bool {
        self.pairs(node.first, node.tasks())
            && (!node.inner
                || self.pairs(node.first_method(), node.method_count)
                    && self.jobs(node)
                    && self.bodies(node)
                    && self.inherited(node)
                    && self.children(node))
    }

    /// (c) and (d).
    fn jobs(&mut self, node: &Node) -> bool {
        let table = &self.plan.table;
        let methods = self.plan.methods(node);
        methods_in(methods).zip(node.first_method()..).for_each(|(method, variable)| self.method_variables[method] = variable);
        members(node.jobs).zip(node.first + node.step_count..).for_each(|(job, variable)| self.job_variables[job] = variable);
        members(node.jobs).all(|job| {
            let own = &table.jobs[job];
            self.lines.clause(UNIT + own.method_count as usize * MOST_BYTES, |out| {
                out.put(Literal::not(self.job_variables[job]));
                methods_in(own.methods).for_each(|method| out.put(Literal::is(self.method_variables[method])));
                out.end();
            })
        }) && methods_in(methods).all(|method| {
            let job = self.job_variables[usize::from(table.methods[method].job)];
            self.pair(Literal::not(self.method_variables[method]), Literal::is(job))
        })
    }

    /// (e).
    fn bodies(&mut self, node: &Node) -> bool {
        let plan = self.plan;
        methods_in(plan.methods(node)).zip(node.first_method()..).all(|(method, variable)| {
            let body = plan.table.methods[method].body();
            let one = Literal::not(variable);
            plan.children(node).enumerate().all(|(place, child)| match body.get(place).map(|task| child.task(*task)) {
                Some(Some(below)) => self.pair(one, Literal::is(below)),
                Some(None) => self.unit(one),
                None => self.excludes(variable, child.first, child.tasks()),
            })
        })
    }

    /// (f).
    fn inherited(&mut self, node: &Node) -> bool {
        let plan = self.plan;
        members(node.steps).zip(node.first..).all(|(step, variable)| {
            plan.children(node).enumerate().all(|(place, child)| match place {
                0 => self.pair(Literal::not(variable), Literal::is(child.step(step))),
                _ => self.excludes(variable, child.first, child.tasks()),
            })
        })
    }

    /// (g).
    fn children(&mut self, node: &Node) -> bool {
        let plan = self.plan;
        let length = self.prefix.fill(node.first..node.first + node.tasks());
        plan.children(node).all(|child| {
            self.lines.row(child.tasks() as usize, length + UNIT, |out, number| {
                out.put_prefix(&self.prefix);
                out.put(Literal::not(child.first + number as u32));
                out.end();
            })
        })
    }

    // Rules 3 and 4

    fn start(&mut self) -> bool {
        let plan = self.plan;
        self.lines.row(plan.table.facts, UNIT, |out, fact| {
            out.put(literal(plan.first_fact + fact as u32, plan.table.start >> fact & 1 == 1));
            out.end();
        })
    }

    fn of_slots(&mut self) -> bool {
        let plan = self.plan;
        let effects = Effects::of(plan);
        let facts = plan.table.facts as u32;
        plan.slots().zip(0..).all(|(node, number)| {
            let before = plan.first_fact + number * facts;
            self.lines.skips(|| counts::of_slot(plan, node))
                || self.of_steps(&effects, node, before, before + facts) && self.frame(&effects, node, before, facts)
        })
    }

    fn of_steps(&mut self, effects: &Effects, node: &Node, before: u32, after: u32) -> bool {
        members(node.steps).zip(node.first..).all(|(step, variable)| {
            let one = Literal::not(variable);
            let mut row = |facts: &[u8], first: u32, is: bool| {
                self.lines.row(facts.len(), PAIR, |out, number| {
                    out.put(one);
                    out.put(literal(first + u32::from(facts[number]), is));
                    out.end();
                })
            };
            let [needs, sets, clears] = effects.of_step(step);
            row(needs, before, true) && row(sets, after, true) && row(clears, after, false)
        })
    }

    fn frame(&mut self, effects: &Effects, node: &Node, before: u32, facts: u32) -> bool {
        members(node.steps).zip(node.first..).for_each(|(step, variable)| self.step_variables[step] = variable);
        self.lines.row(2 * facts as usize, PAIR + node.step_count as usize * MOST_BYTES, |out, number| {
            let (fact, is_set) = (number / 2, number % 2 == 1);
            let variable = before + fact as u32;
            out.put(literal(variable, is_set));
            out.put(literal(variable + facts, !is_set));
            let by = if is_set { &effects.set_by } else { &effects.cleared_by };
            members(by[fact] & node.steps).for_each(|step| out.put(Literal::is(self.step_variables[step])));
            out.end();
        })
    }
}

/// The steps' facts as lists, and for each fact the steps that clear it and do not set it and those that set it.
struct Effects {
    /// Of one step after another, those needed, set, and cleared and not set.
    facts: Vec<u8>,
    /// Where each of the lists ends.
    ends: Vec<u16>,
    cleared_by: [u64; MOST_FACTS],
    set_by: [u64; MOST_FACTS],
}

impl Effects {
    fn of(plan: &Plan) -> Effects {
        let steps = &plan.table.steps;
        let (facts, ends) = (Vec::with_capacity(3 * steps.len()), Vec::with_capacity(3 * steps.len()));
        let mut effects = Effects { facts, ends, cleared_by: [0; MOST_FACTS], set_by: [0; MOST_FACTS] };
        for (number, step) in steps.iter().enumerate() {
            for set in [step.needs, step.sets, step.clears] {
                effects.facts.extend(members(set).map(|fact| fact as u8));
                effects.ends.push(effects.facts.len() as u16);
            }
            members(step.clears).for_each(|fact| effects.cleared_by[fact] |= 1 << number);
            members(step.sets).for_each(|fact| effects.set_by[fact] |= 1 << number);
        }
        effects
    }

    fn of_step(&self, step: usize) -> [&[u8]; 3] {
        let first = if step == 0 { 0 } else { self.ends[3 * step - 1] };
        let ends = &self.ends[3 * step..3 * step + 3];
        [(first, ends[0]), (ends[0], ends[1]), (ends[1], ends[2])].map(|(first, end)| &self.facts[usize::from(first)..usize::from(end)])
    }
}
