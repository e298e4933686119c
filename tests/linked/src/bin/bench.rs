//! Measures the calls and the programs beside Rust, and writes tables for docs/BENCHMARKS.md:
//!
//! - `bench ROOT [NEWER [OLDER]]`, with the repository's folder, whose stored tables and answers are inputs, and the folders whose programs
//!   are measured: otherwise the repository's own, and no older ones;
//! - `bench ROOT --profile [CASE ..]` writes which functions of the library take how much of a case;
//! - `bench ROOT --once CASE CONTENDER` makes one call, for callgrind.

use linked::bench;
use std::path::{absolute, PathBuf};
use std::process::ExitCode;

fn main() -> ExitCode {
    let arguments: Vec<String> = std::env::args().skip(1).collect();
    let folder = |path: &String| -> PathBuf { absolute(path).expect("a folder's path is not empty") };
    match &arguments[..] {
        [root, once, case, contender] if once == "--once" => bench::once(&folder(root), case, contender),
        [root, profile, cases @ ..] if profile == "--profile" => bench::profile(&folder(root), cases),
        [root] => bench::measure(&folder(root), &folder(root), None),
        [root, newer] => bench::measure(&folder(root), &folder(newer), None),
        [root, newer, older] => bench::measure(&folder(root), &folder(newer), Some(&folder(older))),
        _ => {
            eprintln!("bench: the folder of the repository is wanted");
            return ExitCode::FAILURE;
        }
    }
    ExitCode::SUCCESS
}
