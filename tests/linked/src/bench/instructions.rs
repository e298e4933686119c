//! How many instructions a call takes and where they go, as callgrind counts them: the same whatever else the machine does.

use super::case::{fast, Case, LIBRARY};
use super::report::{grouped, row, title};
use crate::clock::Work;
use std::collections::BTreeMap;
use std::path::Path;
use std::process::{Command, Output};

/// Callgrind counts every byte that a `rep` instruction clears or copies. With these thresholds the C library clears and copies by other ones.
const NO_REP: &str = "glibc.cpu.x86_rep_stosb_threshold=1073741824:glibc.cpu.x86_rep_movsb_threshold=1073741824";

/// The table, where valgrind is there.
pub fn measure(root: &Path, cases: &[Case]) {
    if Command::new("valgrind").arg("--version").output().is_err() {
        println!("\nNo instructions were counted: valgrind is not there.");
        return;
    }
    let contenders: Vec<&str> = fast().iter().map(|contender| contender.name).collect();
    title("Instructions", "call, table", &contenders);
    for case in cases {
        let counts: Vec<f64> = contenders.iter().map(|contender| count(root, case, contender) as f64).collect();
        let others = counts[1..].iter().flat_map(|other| [grouped(*other as usize), format!("{:.2}", counts[0] / other)]);
        let figures: Vec<String> = std::iter::once(grouped(counts[0] as usize)).chain(others).collect();
        row(&[case.call.name().to_string(), case.input.name.clone()], &figures);
    }
}

fn count(root: &Path, case: &Case, contender: &str) -> u64 {
    let done = under_callgrind(root, case, contender, Path::new("/dev/null"));
    let told = String::from_utf8_lossy(&done.stderr);
    let collected = told.lines().find_map(|line| line.split_once("Collected : ")).and_then(|(_, count)| count.trim().parse().ok());
    collected.unwrap_or_else(|| panic!("callgrind counted nothing: {told}"))
}

/// This program once more, as `once` has it; callgrind counts what is done below `counted_call`.
fn under_callgrind(root: &Path, case: &Case, contender: &str, profile: &Path) -> Output {
    let own = std::env::current_exe().expect("a program knows where it is");
    let mut valgrind = Command::new("valgrind");
    valgrind.env("GLIBC_TUNABLES", NO_REP);
    valgrind.args(["--tool=callgrind", "--toggle-collect=*counted_call*"]);
    valgrind.arg(format!("--callgrind-out-file={}", profile.display()));
    valgrind.arg(own).arg(root).args(["--once", &case.name(), contender]).output().expect("valgrind can be run")
}

/// What is done under callgrind: the call once to warm up, and once to be counted.
pub fn once(cases: &[Case], name: &str, contender: &str) {
    let case = cases.iter().find(|case| case.name() == name).expect("the case is known");
    let contender = fast().into_iter().find(|known| known.name == contender).expect("the contender is known");
    let mut work = case.work(contender);
    work();
    counted_call(&mut work);
}

#[inline(never)]
fn counted_call(work: &mut Work) {
    work();
}

/// For each case that is named, or for all, the library's functions with their shares of the instructions, but for those below one in a hundred.
pub fn profile(root: &Path, cases: &[Case], names: &[String]) {
    let file = std::env::temp_dir().join(format!("callgrind-{}", std::process::id()));
    for case in cases.iter().filter(|case| names.is_empty() || names.contains(&case.name())) {
        under_callgrind(root, case, LIBRARY.name, &file);
        let annotate = Command::new("callgrind_annotate").args(["--threshold=100", "--auto=no"]).arg(&file).output();
        let done = annotate.expect("callgrind_annotate can be run");
        let shares = shares(&String::from_utf8_lossy(&done.stdout));
        let shares: Vec<String> = shares.iter().map(|(function, share)| format!("{function} {share:.0} %")).collect();
        println!("{}: {}", case.name(), shares.join(", "));
    }
    let _ = std::fs::remove_file(file);
}

/// The functions of a profile's lines `COUNT (SHARE%)  FILE:FUNCTION [OBJECT]`, the greatest share first. One that calls itself has several
/// lines, and the C library's have the processor's instructions behind their names.
fn shares(annotated: &str) -> Vec<(String, f64)> {
    let mut shares: BTreeMap<&str, f64> = BTreeMap::new();
    for line in annotated.lines().skip_while(|line| !line.contains("file:function")) {
        let Some((share, place)) = line.split_once('(').and_then(|(_, rest)| rest.split_once("%)  ")) else { continue };
        let Some((_, function)) = place.split_once(':') else { continue };
        let name = function.split([' ', '\'']).next().unwrap_or(function).trim_start_matches("__");
        let name = name.split("_avx").next().unwrap_or(name);
        *shares.entry(name).or_default() += share.trim().parse::<f64>().unwrap_or(0.0);
    }
    let mut shares: Vec<(String, f64)> = shares.into_iter().map(|(function, share)| (function.to_string(), share)).collect();
    shares.retain(|(_, share)| *share >= 1.0);
    shares.sort_by(|one, other| other.1.total_cmp(&one.1));
    shares
}
