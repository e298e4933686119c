//! Broken copies of the crates, and which case catches each: `broken REPOSITORY [SEED] [TABLES] [MOST] [EDIT ..]`, with the seed, the
//! number of tables and the most bytes of a file that `cases` takes, and the edits to try, by name, otherwise all. Every edit of
//! `crates/*/must-fail/` that changes code below the program `stored` is applied to a copy, and `rt try` runs that program of the copy,
//! without a proof, on random cases whose outcome the second planner gives. A copy passes here if a case catches it. A joint edit makes
//! a copy for each of its faults, named CRATE/EDIT/FUNCTION, another edit one, named CRATE/EDIT; CRATE/EDIT wants all of an edit's.

use planner::runs::edits::{faults, Fault, Replacement};
use planner::runs::{scratch, Tally};
use std::path::{Path, PathBuf};
use std::process::{Command, ExitCode, Stdio};

const PROGRAM: &str = "stored";

/// The program runs nothing of these crates, and lends no tree, so nothing of these modules; a static library, which does, is only built
/// once it is proved.
const NOT_BELOW: [&str; 2] = ["curdfuture/", "nodes/"];
const WITH_A_TREE: &str = "src/flat.rt";

enum Tried {
    Same,
    Differs(String),
    NotEnded,
    NotCompiled,
}

fn run(program: &str, arguments: &[&str]) {
    Command::new(program).args(arguments).output().expect("the command runs");
}

/// Without what checks have left.
fn copy_repository(repository: &Path) {
    run("sh", &["-c", "tar -C \"$1\" --exclude=out -cf - crates crates.txt | tar -xf -", "sh", &repository.to_string_lossy()]);
    run("git", &["init", "-q"]);
}

fn store_cases(seed: &str, tables: &str, most: &str) {
    let folder = format!("crates/{PROGRAM}");
    let _ = std::fs::remove_dir_all(format!("{folder}/data"));
    let own = std::env::current_exe().expect("this program has a path");
    run(&own.with_file_name("cases").to_string_lossy(), &[&folder, seed, tables, most]);
}

/// What `rt try` says of the program, which it gives the files of its data.
fn attempt() -> Tried {
    let folder = Path::new("crates").join(PROGRAM);
    let mut command = Command::new("timeout");
    command.args(["240", "rt", "try", "--seconds", "120"]).current_dir(&folder);
    let data = std::fs::read_dir(folder.join("data")).expect("the cases are stored");
    for name in data.filter_map(|entry| entry.ok()?.file_name().into_string().ok()) {
        command.args(["--data".to_string(), format!("{name}=data/{name}")]);
    }
    let done = command.stdin(Stdio::null()).output().expect("the command runs");
    let expected = contents(&folder.join("stdout"));
    match (done.status.code(), String::from_utf8_lossy(&done.stdout)) {
        (Some(0), wrote) if wrote == expected => Tried::Same,
        (Some(0), wrote) => Tried::Differs(case_at(&wrote, &expected)),
        // a fault, two runs that differ, no answer; the time is up
        (Some(4..=6 | 124), _) => Tried::NotEnded,
        _ => Tried::NotCompiled,
    }
}

/// The case in whose output the first difference lies.
fn case_at(wrote: &str, expected: &str) -> String {
    let byte = wrote.bytes().zip(expected.bytes()).take_while(|(one, other)| one == other).count();
    let index = contents(&Path::new("crates").join(PROGRAM).join("data/index"));
    let before = format!("\n{}", String::from_utf8_lossy(&expected.as_bytes()[..byte.saturating_add(1).min(expected.len())]));
    let line = index.lines().rfind(|line| before.contains(&format!("\n{line}\n"))).or(index.lines().next()).unwrap_or("");
    line.replace('\t', " ")
}

/// The case that catches the fault, or why none does.
fn caught(fault: &Fault) -> Result<String, &'static str> {
    let files = fault.replacements.iter().map(|replacement| &replacement.file);
    let before: Vec<(&PathBuf, String)> = files.map(|file| (file, contents(file))).collect();
    let found = if apply(fault) { tried() } else { Err("the text to replace is not there") };
    before.iter().for_each(|(file, text)| put(file, text));
    found
}

fn apply(fault: &Fault) -> bool {
    fault.replacements.iter().all(|Replacement { file, old, new }| {
        let text = contents(file);
        put(file, &text.replacen(old, new, 1));
        text.contains(old)
    })
}

fn tried() -> Result<String, &'static str> {
    match attempt() {
        Tried::Differs(case) => Ok(case),
        Tried::NotEnded => Ok("it failed or did not end within the time limit".to_string()),
        Tried::Same => Err("not caught"),
        Tried::NotCompiled => Err("not compiled, so nothing was run"),
    }
}

fn contents(file: &Path) -> String {
    std::fs::read_to_string(file).expect("the file is there")
}

fn put(file: &Path, text: &str) {
    std::fs::write(file, text).expect("the copy can be changed");
}

fn main() -> ExitCode {
    let arguments: Vec<String> = std::env::args().collect();
    let Some(repository) = arguments.get(1).and_then(|path| std::fs::canonicalize(path).ok()) else {
        eprintln!("broken: the repository is wanted");
        return ExitCode::FAILURE;
    };
    let word = |place: usize, otherwise: &str| arguments.get(place).cloned().unwrap_or_else(|| otherwise.to_string());
    let wanted = arguments.get(5..).unwrap_or(&[]);
    let lends = |fault: &Fault| fault.replacements.iter().any(|replacement| replacement.file.ends_with(WITH_A_TREE));
    let is_below = |fault: &Fault| fault.is_of_code() && !lends(fault) && !NOT_BELOW.iter().any(|start| fault.name.starts_with(start));
    let mut faults = faults(&repository.join("crates"));
    faults.retain(|fault| is_below(fault) && (wanted.is_empty() || wanted.iter().any(|name| fault.is_named(name))));
    let folder = scratch::enter();
    let mut tally = Tally::new(scratch::failed());
    copy_repository(&repository);
    store_cases(&word(2, "1"), &word(3, "80"), &word(4, "3000"));
    tally.case("unbroken", 0, matches!(attempt(), Tried::Same), &[]);
    for fault in &faults {
        let found = caught(fault);
        println!("{}\t{}\t{}", fault.name, fault.breaks, found.as_deref().unwrap_or_else(|why| why));
        tally.case(&fault.name, 0, found.is_ok(), &[]);
    }
    let _ = std::fs::remove_dir_all(folder);
    tally.verdict()
}
