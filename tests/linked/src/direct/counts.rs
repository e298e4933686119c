//! How many clauses there are, without making one.

use super::places::{members, Node, Plan};
use super::table::LONGEST_BODY;

pub fn all(plan: &Plan) -> usize {
    let nodes: usize = plan.nodes.iter().map(|node| of_node(plan, node)).sum();
    let slots: usize = plan.slots().map(|node| of_slot(plan, node)).sum();
    1 + nodes + plan.table.facts + slots
}

/// Rule 2.
pub fn of_node(plan: &Plan, node: &Node) -> usize {
    let tasks = pairs(node.tasks() as usize);
    if !node.inner {
        return tasks;
    }
    // How many task variables the children from each place on have.
    let mut below = [0; LONGEST_BODY + 1];
    for (place, child) in plan.children(node).enumerate() {
        below[place] = child.tasks() as usize;
    }
    (0..LONGEST_BODY).rev().for_each(|place| below[place] += below[place + 1]);
    let lengths = members(node.jobs).fold(0, |all, job| all + plan.table.jobs[job].lengths).to_le_bytes();
    let bodies: usize = (0..=LONGEST_BODY).map(|length| usize::from(lengths[length]) * (length + below[length])).sum();
    let inherited = node.step_count as usize * (1 + below[1]);
    let (jobs, methods) = (node.job_count as usize, node.method_count as usize);
    tasks + pairs(methods) + jobs + methods + bodies + inherited + below[0]
}

/// Rule 4.
pub fn of_slot(plan: &Plan, node: &Node) -> usize {
    members(node.steps).map(|step| plan.table.steps[step].effects as usize).sum::<usize>() + 2 * plan.table.facts
}

fn pairs(count: usize) -> usize {
    count * count.saturating_sub(1) / 2
}
