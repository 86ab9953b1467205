//! What is made through the library. Build it first, with `tools/build`.
//!
//! `library_tests compare` makes many calls and compares what each of them answers and writes with the independent
//! implementation. Most inputs are made from a seed, which is printed first: a number behind `compare` takes the place
//! of the clock's.
//!
//! `library_tests benchmark` prints how long its calls take beside the same in plain Rust, and with `--plot FILE` it
//! draws how the times grow. It is no test: nothing fails where a time is long.

mod benchmark;
mod compare;
mod plain;

use std::path::Path;
use std::process::ExitCode;

fn main() -> ExitCode {
    let arguments: Vec<String> = std::env::args().skip(1).collect();
    let arguments: Vec<&str> = arguments.iter().map(String::as_str).collect();
    match arguments[..] {
        ["compare"] => return compare::compare(None),
        ["compare", seed] => {
            let seed = seed.parse().ok();
            return seed.map_or_else(usage, |seed| compare::compare(Some(seed)));
        }
        ["benchmark"] => benchmark::benchmark(None),
        ["benchmark", "--plot", file] => benchmark::benchmark(Some(Path::new(file))),
        _ => return usage(),
    }
    ExitCode::SUCCESS
}

fn usage() -> ExitCode {
    eprintln!("compare, with a seed or none; or benchmark, with --plot and a file or without");
    ExitCode::FAILURE
}
