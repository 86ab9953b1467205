//! The built test program beside this implementation, on all cases.

use crate::answers::answer;
use crate::cases::{Case, Kind};
use crate::guarantee::errors_corrected;
use crate::parts;
use crate::program::{run, text};
use crate::tally::told;
use std::path::Path;
use std::process::{ExitCode, Output};
use std::slice;

/// So many cases go to one run of the program. Where its answers differ, each of them goes to a run of its own.
const BATCH: usize = 500;

/// So many of the cases that differ are shown.
const SHOWN: usize = 5;

pub fn compare(program: &Path) -> ExitCode {
    let cases = parts::all();
    let (mut failed, mut corrected) = (0, 0);
    for batch in cases.chunks(BATCH) {
        match answers(program, batch) {
            Ok(count) => corrected += count,
            Err(_) => failed += differing(program, batch, SHOWN.saturating_sub(failed)),
        }
    }
    println!("{corrected} errors are corrected up to a member of the group");
    told(cases.len() - failed, failed)
}

/// How many of the cases differ, each run by itself; all of them where none does, since run together they do. Shows
/// some.
fn differing(program: &Path, cases: &[Case], shown: usize) -> usize {
    let differences: Vec<(&Case, Output)> = cases
        .iter()
        .filter_map(|case| Some((case, answers(program, slice::from_ref(case)).err()?)))
        .collect();
    for (case, output) in differences.iter().take(shown) {
        println!("--- the case\n{}", text(&case.bytes()));
        println!("--- has to be answered\n{}", text(&answer(case)));
        println!(
            "--- and is answered ({})\n{}{}",
            output.status,
            text(&output.stdout),
            text(&output.stderr)
        );
    }
    match differences.len() {
        0 => {
            println!(
                "--- {} cases differ when they are run together",
                cases.len()
            );
            cases.len()
        }
        count => count,
    }
}

/// How many errors the program corrects, where it gives the answers to the cases and the guarantee holds of what it
/// gives; else what it gives.
fn answers(program: &Path, cases: &[Case]) -> Result<usize, Output> {
    let input: Vec<u8> = cases.iter().flat_map(Case::bytes).collect();
    let answers: Vec<Vec<u8>> = cases.iter().map(answer).collect();
    let output = run(program, &[&input]);
    if !output.status.success() || output.stdout != answers.concat() {
        return Err(output);
    }
    let mut corrected = 0;
    let mut rest = &output.stdout[..];
    for (case, answer) in cases.iter().zip(answers) {
        let (given, behind) = rest.split_at(answer.len());
        rest = behind;
        if case.kind == Kind::Corrections {
            match errors_corrected(&case.text, given) {
                Some(count) => corrected += count,
                None => return Err(output),
            }
        }
    }
    Ok(corrected)
}
