//! The compiled programs and public solvers, run as processes.

use std::fs::File;
use std::io::{Result, Write};
use std::path::Path;
use std::process::{Command, Output, Stdio};
use std::thread::sleep;
use std::time::Duration;

/// So long that a program that waits for input has read what came before.
const BETWEEN_PIECES: Duration = Duration::from_millis(1);

/// What a program wrote to standard output and to standard error.
pub struct Wrote {
    pub output: Vec<u8>,
    pub error: Vec<u8>,
}

impl From<Output> for Wrote {
    fn from(done: Output) -> Wrote {
        Wrote { output: done.stdout, error: done.stderr }
    }
}

/// Runs a program with a file as its standard input.
pub fn run_with_file(program: &Path, arguments: &[&str], input: &Path) -> Result<Wrote> {
    Ok(Command::new(program).args(arguments).stdin(File::open(input)?).output()?.into())
}

/// Runs a program with a file as its standard input and another as its standard output.
pub fn run_into_file(program: &Path, input: &Path, output: &Path) -> Result<Wrote> {
    let output = File::options().write(true).open(output)?;
    Ok(Command::new(program).stdin(File::open(input)?).stdout(output).output()?.into())
}

/// Runs a program with a pipe as its standard input, into which the bytes come in pieces of a length, one after another.
pub fn run_in_pieces(program: &Path, bytes: &[u8], length: usize) -> Result<Wrote> {
    let mut child = Command::new(program).stdin(Stdio::piped()).stdout(Stdio::piped()).stderr(Stdio::piped()).spawn()?;
    let mut input = child.stdin.take().expect("the pipe was asked for");
    for piece in bytes.chunks(length) {
        input.write_all(piece)?;
        sleep(BETWEEN_PIECES);
    }
    drop(input);
    Ok(child.wait_with_output()?.into())
}
