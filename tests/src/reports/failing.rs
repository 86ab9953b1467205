//! The program where the system fails it: a read or a write that cannot be made.

use std::fs::File;
use std::path::Path;
use std::process::{Command, Output, Stdio};

/// In so many ways the system fails.
pub const WAYS: usize = 2;

/// In how many of these ways the program does not tell of it on standard error, or writes a report all the same. Each
/// that is found is shown.
pub fn failures_that_are_not_told(program: &Path) -> usize {
    let outputs = [
        ("standard input", unreadable(program)),
        ("standard output", unwritable(program)),
    ];
    let is_told = |what: &str, output: &Output| {
        output.stdout.is_empty() && output.stderr.starts_with(what.as_bytes())
    };
    let silent = outputs
        .iter()
        .filter(|(what, output)| !is_told(what, output));
    silent
        .inspect(|(what, output)| println!("--- a failure of {what} is not told: {output:?}"))
        .count()
}

/// A folder can be opened, and not read.
fn unreadable(program: &Path) -> Output {
    let folder = File::open(env!("CARGO_MANIFEST_DIR")).expect("a folder");
    output(program, folder.into(), Stdio::piped())
}

/// The device is always full.
fn unwritable(program: &Path) -> Output {
    let full = File::options().write(true).open("/dev/full");
    let full = full.expect("a device that is full");
    output(program, Stdio::null(), full.into())
}

fn output(program: &Path, stdin: Stdio, stdout: Stdio) -> Output {
    let mut command = Command::new(program);
    let command = command.stdin(stdin).stdout(stdout).stderr(Stdio::piped());
    let child = command.spawn().expect("the program runs");
    child.wait_with_output().expect("the program ends")
}
