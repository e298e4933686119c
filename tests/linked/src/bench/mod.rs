//! What is measured. Every contender's result is compared before anything is measured.

mod case;
mod input;
mod instructions;
mod programs;
mod report;

use crate::clock::{in_turns, shown, Clock, Work};
use case::{all, fast, Call, Case, Contender, LARGE_TEXT, LIBRARY};
use input::{grown, read, unreached, Input, Size};
use planner::calls::TEXT_BYTES;
use report::{case_row, contender_names, figures, grouped, row, title};
use std::hint::black_box;
use std::path::Path;

/// The inputs that more than one table is about.
struct Inputs {
    wide: Input,
    large_wide: Input,
    facts: Input,
    nodes: Input,
    bytes: Input,
    refused: Input,
    example: Input,
    workshop: Input,
    unreached: Input,
}

impl Inputs {
    fn of(root: &Path) -> Inputs {
        let data = root.join("crates/stored/data");
        let facts = "c313-large-variables-8191";
        Inputs {
            wide: Input::answered(&data, "wide", "wide.answer"),
            large_wide: Input::stored(&data, "large-wide"),
            facts: Input::answered(&data, facts, &format!("{facts}.a0-right.answer")),
            nodes: Input::stored(&data, "c312-large-nodes-1024"),
            bytes: Input::stored(&data, "c314-large-bytes-65536"),
            refused: Input::stored(&data, "edge-bytes-65536"),
            example: Input::example(),
            workshop: Input::solved("total-station", read(&root.join("tests/workshops/total-station.tab"))),
            unreached: unreached(),
        }
    }

    /// The cases whose instructions are counted.
    fn counted(&self) -> Vec<Case<'_>> {
        let Inputs { wide, large_wide, facts, nodes, bytes, refused, example, workshop, unreached } = self;
        let mut cases = inputs_by(Call::Check, &[example, workshop, unreached, facts, large_wide, bytes, refused]);
        cases.extend(inputs_by(Call::Build, &[nodes]));
        cases.extend(inputs_by(Call::WriteFormula(0, TEXT_BYTES), &[example]));
        cases.extend(inputs_by(Call::WHOLE_FORMULA, &[workshop, nodes, facts, large_wide]));
        cases.extend(inputs_by(Call::TakeAnswer, &[workshop, facts, wide]));
        cases.extend(inputs_by(Call::ListProcedure, &[wide]));
        cases.extend(inputs_by(Call::ListAnswer, &[example]));
        cases
    }
}

/// All tables, with the repository's folder, the one whose programs are measured, and an older one where there is one.
pub fn measure(root: &Path, newer: &Path, older: Option<&Path>) {
    let inputs = Inputs::of(root);
    machine();
    whole_formulas(&[&inputs.large_wide, &inputs.facts, &inputs.nodes]);
    text_calls(&inputs.large_wide);
    calls("Taking an answer", &inputs_by(Call::TakeAnswer, &[&inputs.wide, &inputs.facts]));
    without_a_tree(&inputs);
    let checked = [&inputs.refused, &inputs.bytes, &inputs.large_wide, &inputs.facts, &inputs.nodes];
    calls("Checking a table", &inputs_by(Call::Check, &checked));
    calls("Building the tree", &inputs_by(Call::Build, &[&inputs.large_wide, &inputs.facts, &inputs.nodes]));
    calls("Listing values", &inputs_by(Call::ListProcedure, &[&inputs.wide, &inputs.facts]));
    small_tables(&[(&inputs.example, TEXT_BYTES), (&inputs.workshop, LARGE_TEXT), (&inputs.unreached, LARGE_TEXT)]);
    growth();
    programs::measure(
        newer,
        older,
        &[&inputs.example, &inputs.workshop, &inputs.nodes, &inputs.large_wide],
        &[&inputs.example, &inputs.workshop, &inputs.facts, &inputs.wide],
    );
    instructions::measure(root, &inputs.counted());
}

/// One call, for callgrind to count.
pub fn once(root: &Path, case: &str, contender: &str) {
    instructions::once(&Inputs::of(root).counted(), case, contender);
}

/// Where the library's instructions go, in these cases, or in all where none is named.
pub fn profile(root: &Path, names: &[String]) {
    instructions::profile(root, &Inputs::of(root).counted(), names);
}

fn machine() {
    let cpu = std::fs::read_to_string("/proc/cpuinfo").unwrap_or_default();
    let model = cpu.lines().find_map(|line| line.strip_prefix("model name")).unwrap_or("").trim_start_matches([' ', '\t', ':']);
    let cores = std::thread::available_parallelism().map_or(0, usize::from);
    println!("One core of {cores}: {model}.");
}

fn inputs_by<'a>(call: Call, inputs: &[&'a Input]) -> Vec<Case<'a>> {
    inputs.iter().map(|input| Case { call, input }).collect()
}

// What is measured

fn whole_formulas(inputs: &[&Input]) {
    let contenders = all();
    let names: Vec<&str> = contender_names(&contenders).into_iter().chain(["copying the bytes"]).collect();
    title("Whole formula", "table, variables, clauses, bytes", &names);
    for input in inputs {
        let case = Case { call: Call::WHOLE_TEXT, input };
        let [used, _, _] = case.agreed(&contenders).expect("a table that is measured is accepted");
        let [_, variables, clauses] = input.counts;
        let (text, mut copy): (Vec<u8>, Vec<u8>) = (vec![7; used], vec![0; LARGE_TEXT]);
        let mut works: Vec<Work> = contenders.iter().map(|contender| case.work(*contender)).collect();
        works.push(Box::new(|| black_box(&mut copy)[..used].copy_from_slice(black_box(&text))));
        let about = [input.name.clone(), grouped(variables), grouped(clauses), grouped(used)];
        row(&about, &figures(&in_turns(Clock::Thread, &mut works)));
    }
}

fn text_calls(input: &Input) {
    let contenders = fast();
    title(&format!("One text call on {}, by its first line", input.name), "buffer, line, bytes used", &contender_names(&contenders));
    let [_, _, clauses] = input.counts;
    for room in [TEXT_BYTES, 65_536] {
        for line in [0, clauses / 2, clauses] {
            let case = Case { call: Call::WriteText(line, room), input };
            let [used, _, _] = case.agreed(&contenders).expect("the line is there");
            case_row(&[grouped(room), grouped(line), grouped(used)], &case, &contenders);
        }
    }
}

/// A table of calls on tables, with what each comes to.
fn calls(text: &str, cases: &[Case]) {
    let contenders = all();
    title(text, "call, table, bytes of the table, outcome", &contender_names(&contenders));
    for case in cases {
        call_row(case, &contenders);
    }
}

fn call_row(case: &Case, contenders: &[Contender]) {
    let outcome = case.agreed(contenders);
    let what = |[first, _, last]: [usize; 3]| match case.call {
        Call::Check => format!("{} clauses", grouped(last)),
        Call::Build => format!("{} nodes", grouped(first)),
        Call::TakeAnswer => format!("{} values", grouped(first)),
        _ => format!("{} bytes", grouped(first)),
    };
    let told = outcome.map_or_else(|refused| format!("refused {}", refused.0), what);
    let about = [case.call.name().to_string(), case.input.name.clone(), grouped(case.input.file.len()), told];
    case_row(&about, case, contenders);
}

/// The calls that are lent no tree.
fn without_a_tree(inputs: &Inputs) {
    let mut cases = inputs_by(Call::WHOLE_FORMULA, &[&inputs.large_wide, &inputs.facts, &inputs.nodes]);
    cases.extend(inputs_by(Call::ListAnswer, &[&inputs.wide, &inputs.facts]));
    calls("No tree lent", &cases);
}

/// Every call on small tables, with so many bytes for a text.
fn small_tables(inputs: &[(&Input, usize)]) {
    let calls_on = |text| {
        [
            Call::Check,
            Call::Build,
            Call::WriteText(0, text),
            Call::WriteFormula(0, text),
            Call::TakeAnswer,
            Call::ListProcedure,
            Call::ListAnswer,
        ]
    };
    let cases = inputs.iter().flat_map(|(input, text)| calls_on(*text).map(|call| Case { call, input }));
    calls("Small tables", &cases.collect::<Vec<Case>>());
}

// Growth

fn growth() {
    let columns = "what grows, nodes, variables, clauses, bytes of text, check, ns a node, whole text, ns a byte, take_answer, ns a clause";
    title("Growth", columns, &[]);
    let size = |width, steps, facts, depth| Size { width, steps, facts, depth };
    let nodes = [2, 4, 6, 8].map(|width| size(width, 2, 2, 3));
    let steps = [2, 8, 16, 64].map(|steps| size(8, steps, 8, 2));
    let facts = [4, 16, 32, 64].map(|facts| size(8, 8, facts, 2));
    for (what, sizes) in [("nodes", nodes), ("steps", steps), ("facts", facts)] {
        for size in sizes {
            growth_row(what, &grown(size));
        }
    }
}

fn growth_row(what: &str, input: &Input) {
    let cases = [Call::Check, Call::WHOLE_TEXT, Call::TakeAnswer].map(|call| Case { call, input });
    let [_, written, _] = cases.each_ref().map(|case| case.agreed(&fast()).expect("a table that is measured is accepted"));
    let [nodes, variables, clauses] = input.counts;
    let mut works = cases.each_ref().map(|case| case.work(LIBRARY));
    let times = in_turns(Clock::Thread, &mut works);
    let per = [(nodes, 0), (written[0], 1), (clauses, 0)];
    let figures = times.iter().zip(per).flat_map(|(times, (count, decimals))| {
        let each = times.median() * 1e9 / count as f64;
        [shown(times.median()), format!("{each:.decimals$}")]
    });
    let about = [what.to_string(), grouped(nodes), grouped(variables), grouped(clauses), grouped(written[0])];
    row(&about, &figures.collect::<Vec<String>>());
}
