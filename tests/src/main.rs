//! The independent implementation as a program.
//!
//! `independent cases` writes a selection of the cases, and `independent answers` reads cases and writes an answer
//! for each: these two make crates/test_calls/stdin and crates/test_calls/stdout. `independent compare PROGRAM` runs
//! the program on all cases and compares its answers.
//!
//! `independent report` does what the program `report` does. `independent reports PROGRAM` runs that program on many
//! inputs and compares its reports. Most inputs are made from a seed, which is printed first: a number behind PROGRAM
//! takes the place of the clock's, and `--input` with the seed of one input runs that one and shows it.

use independent::cases::Case;
use independent::{answers, cases, compare, parts, report, reports};
use std::io::{self, Read, Write};
use std::path::Path;
use std::process::ExitCode;

fn main() -> ExitCode {
    let arguments: Vec<String> = std::env::args().skip(1).collect();
    let arguments: Vec<&str> = arguments.iter().map(String::as_str).collect();
    match arguments[..] {
        ["cases"] => write(parts::selection().iter().flat_map(Case::bytes)),
        ["answers"] => write(cases::read(&input()).iter().flat_map(answers::answer)),
        ["report"] => write(report::report(&input()).into_iter()),
        ["compare", program] => return compare::compare(Path::new(program)),
        ["reports", program, ..] => return compare_reports(Path::new(program), &arguments[2..]),
        _ => return usage(),
    }
    ExitCode::SUCCESS
}

fn usage() -> ExitCode {
    eprintln!(
        "cases; or answers, with cases on standard input; or compare and a program; or report, with a sheet on \
         standard input; or reports and a program, with a seed or --input and the seed of one input"
    );
    ExitCode::FAILURE
}

/// On all inputs, or on that of one seed.
fn compare_reports(program: &Path, arguments: &[&str]) -> ExitCode {
    let seed = |text: &str| text.parse().ok();
    match arguments {
        [] => reports::compare(program, None),
        [text] if seed(text).is_some() => reports::compare(program, seed(text)),
        ["--input", text] => {
            seed(text).map_or_else(usage, |seed| reports::compare_one(program, seed))
        }
        _ => usage(),
    }
}

fn input() -> Vec<u8> {
    let mut bytes = Vec::new();
    let read = io::stdin().read_to_end(&mut bytes);
    read.expect("bytes on standard input");
    bytes
}

fn write(bytes: impl Iterator<Item = u8>) {
    let bytes: Vec<u8> = bytes.collect();
    let written = io::stdout().write_all(&bytes);
    written.expect("standard output is open");
}
