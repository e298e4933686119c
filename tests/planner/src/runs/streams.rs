//! The programs `formula` and `procedure` where standard input comes in pieces, and where standard output does not take all. The working
//! directory is a scratch folder.

use super::programs::Programs;
use super::Tally;
use crate::files::{EXAMPLE, EXAMPLE_ANSWER};
use crate::make::limits::LIMITS;
use crate::outside::{run_in_pieces, run_into_file, run_with_file, Wrote};
use crate::programs::{formula_writes, number_written, procedure_writes};
use crate::random::Random;
use std::fs::write;
use std::path::Path;

pub fn compare(tally: &mut Tally, random: &mut Random, programs: &Programs) {
    let at_limit = |name: &str, random: &mut Random| {
        let limit = LIMITS.iter().find(|limit| limit.name == name).expect("a limit of that name");
        (limit.at)(random)
    };
    let longest = at_limit("bytes", random);
    let one_more = [&longest[..], b"\n"].concat();
    for (table, length) in
        [(EXAMPLE.as_bytes(), 1), (b"", 1), (&longest, 1_021), (&longest, 65_535), (&one_more, 1_021), (&one_more, 65_536)]
    {
        piecewise(tally, programs, table, length);
    }
    let widest = at_limit("all counts at once", random);
    for table in [EXAMPLE.as_bytes(), b"", &widest] {
        formula_cut(tally, programs, table);
    }
    for answer in [EXAMPLE_ANSWER, ""] {
        procedure_cut(tally, programs, answer.as_bytes());
    }
    tally.print_given("input in pieces, output cut short");
}

/// A table that comes piece by piece is taken as if it came at once: none is cut, and one that is too long is seen to be.
fn piecewise(tally: &mut Tally, programs: &Programs, table: &[u8], length: usize) {
    let expected = formula_writes(table);
    let wrote = run_in_pieces(&programs.formula, table, length).expect("formula runs");
    let name = format!("formula, {} bytes in pieces of {length}", table.len());
    let passes = wrote.output == expected.as_bytes() && wrote.error.is_empty();
    tally.case(&name, number_written(expected.as_bytes()), passes, &[("table.tab", table), ("written", &wrote.output)]);
}

fn formula_cut(tally: &mut Tally, programs: &Programs, table: &[u8]) {
    write("table.tab", table).expect("the scratch folder takes files");
    cut(tally, "formula", &programs.formula, &formula_writes(table));
}

fn procedure_cut(tally: &mut Tally, programs: &Programs, answer: &[u8]) {
    write("table.tab", EXAMPLE).expect("the scratch folder takes files");
    write("answer.txt", answer).expect("the scratch folder takes files");
    cut(tally, "procedure", &programs.procedure, &procedure_writes(EXAMPLE.as_bytes(), answer));
}

/// The program reads `table.tab`, and `whole` is what it writes where nothing is in the way.
fn cut(tally: &mut Tally, name: &str, program: &Path, whole: &str) {
    let input = Path::new("table.tab");
    let full = run_into_file(program, input, Path::new("/dev/full")).expect("the program runs");
    told(tally, name, "a full device", &full, &[]);
    let closed = in_shell(program, "exec \"$0\" <table.tab >&-");
    told(tally, name, "no standard output", &closed, &[]);
    if whole.len() > 1_024 {
        write("written", "").expect("the scratch folder takes files");
        let limited = in_shell(program, "trap '' XFSZ; ulimit -f 1; exec \"$0\" <table.tab >written");
        let written = std::fs::read("written").expect("the output can be read");
        told(tally, name, "a file that may have a few bytes", &limited, &written);
        tally.case(&format!("{name}, the first bytes"), 0, !written.is_empty() && whole.as_bytes().starts_with(&written), &[]);
    }
    let free = run_with_file(program, &[], input).expect("the program runs");
    tally.case(
        &format!("{name}, nothing in the way"),
        0,
        free.output == whole.as_bytes() && free.error.is_empty(),
        &[("error", &free.error)],
    );
}

fn in_shell(program: &Path, script: &str) -> Wrote {
    run_with_file(Path::new("sh"), &["-c", script, &program.to_string_lossy()], Path::new("/dev/null")).expect("a shell runs")
}

/// One line on standard error tells that the output is not whole, and what the system said.
fn told(tally: &mut Tally, name: &str, onto: &str, wrote: &Wrote, written: &[u8]) {
    let line = format!("{name}: the output could not be written whole: ");
    let passes = wrote.error.starts_with(line.as_bytes())
        && wrote.error.ends_with(b"\n")
        && wrote.error.iter().filter(|byte| **byte == b'\n').count() == 1
        && wrote.output.is_empty();
    tally.case(&format!("{name} onto {onto}"), 0, passes, &[("error", &wrote.error), ("written", written)]);
}
