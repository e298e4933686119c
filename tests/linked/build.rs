//! Links the static library that `tools/build curdfuture` makes, or the one that the variable LIBRARY names. Where OLDER_LIBRARY names another
//! one, that is linked too, with `older_` before the names of its functions.

use std::path::{Path, PathBuf};
use std::process::Command;

fn main() {
    let path = |variable: &str| {
        println!("cargo:rerun-if-env-changed={variable}");
        std::env::var_os(variable).filter(|path| !path.is_empty()).map(PathBuf::from)
    };
    let here = path("CARGO_MANIFEST_DIR").expect("cargo says where the package is");
    let out = path("OUT_DIR").expect("cargo says where to write");
    println!("cargo:rustc-link-search=native={}", out.display());
    let library = path("LIBRARY").unwrap_or_else(|| here.join("../../target/staticlib/libcurdfuture.a"));
    std::fs::copy(&library, out.join("libcurdfuture.a")).unwrap_or_else(|error| panic!("{}: {error}", library.display()));
    link(&library, "curdfuture");
    if let Some(older) = path("OLDER_LIBRARY") {
        rename(&older, &out.join("libcurdfuture_older.a"), "older_");
        link(&older, "curdfuture_older");
        println!("cargo:rustc-cfg=older");
    }
}

fn link(library: &Path, name: &str) {
    println!("cargo:rerun-if-changed={}", library.display());
    println!("cargo:rustc-link-lib=static={name}");
}

/// A copy of the library with a prefix before the name of each function that it defines.
fn rename(library: &Path, copy: &Path, prefix: &str) {
    let defined = told("nm", &["-g".as_ref(), "--defined-only".as_ref(), library]);
    let functions = defined.lines().filter_map(|line| line.rsplit_once(" T ")).map(|(_, function)| function);
    let renamed: Vec<String> = functions.map(|function| format!("--redefine-sym={function}={prefix}{function}")).collect();
    let arguments: Vec<&Path> = renamed.iter().map(Path::new).chain([library, copy]).collect();
    told("objcopy", &arguments);
}

/// What a command writes.
fn told(command: &str, arguments: &[&Path]) -> String {
    let done = Command::new(command).args(arguments).output().unwrap_or_else(|error| panic!("{command}: {error}"));
    assert!(done.status.success(), "{command}: {}", String::from_utf8_lossy(&done.stderr));
    String::from_utf8(done.stdout).expect("names are ASCII")
}
