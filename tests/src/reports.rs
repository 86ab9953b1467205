//! The built program `report` beside the report that is made here: one run of the program for each input.
//!
//! Some inputs are fixed, and many are made from seeds. The seeds of a run follow on one another from the run's seed
//! on, and an input can be made again from its own seed alone.

mod codes;
mod damaged;
mod failing;
mod fixed;
mod generated;
mod judgement;
mod occurred;

use crate::program::{run, text};
use crate::random::seed_of_clock;
use crate::report::report;
use crate::sheet::Letter;
use crate::tally::told;
pub use codes::MOST_BYTES;
pub use generated::ROUND;
use judgement::fault;
use occurred::Occurred;
use std::path::Path;
use std::process::{ExitCode, Output};
use std::thread;

/// So many runs of the program at a time.
const WORKERS: usize = 2;

/// So many of the inputs that fail are shown, of the fixed ones and of those from seeds.
const SHOWN: usize = 5;

/// In so many pieces an input comes that comes slowly.
const PIECES: usize = 3;

/// An input, and what is known of its report.
#[derive(Clone, Default)]
struct Input {
    /// by which it is found again
    name: String,
    bytes: Vec<u8>,
    /// where the `s=` lines are the syndromes of errors that the code corrects: these
    errors: Vec<Vec<Letter>>,
    /// the report that is kept with it
    kept: Option<Vec<u8>>,
    /// whether it comes in several pieces, one after the other
    slowly: bool,
}

impl Input {
    fn run(&self, program: &Path) -> Output {
        let len = match self.slowly {
            true => self.bytes.len() / PIECES + 1,
            false => self.bytes.len().max(1),
        };
        let pieces: Vec<&[u8]> = self.bytes.chunks(len).collect();
        run(program, &pieces)
    }
}

impl From<Vec<u8>> for Input {
    fn from(bytes: Vec<u8>) -> Input {
        Input {
            bytes,
            ..Input::default()
        }
    }
}

/// The bytes of the inputs that are the same in each run.
pub fn fixed_inputs() -> impl Iterator<Item = Vec<u8>> {
    fixed::inputs().into_iter().map(|input| input.bytes)
}

/// The bytes of inputs from seeds: in a round of them, one of so many.
pub fn inputs_of_round(step: usize) -> impl Iterator<Item = Vec<u8>> {
    let seeds = (0..ROUND).step_by(step);
    seeds.map(|seed| input_of_seed(seed as u64))
}

/// The bytes of the input from a seed.
pub fn input_of_seed(seed: u64) -> Vec<u8> {
    generated::input(seed).bytes
}

/// Runs the program on all inputs. Without a seed the clock gives one.
pub fn compare(program: &Path, seed: Option<u64>) -> ExitCode {
    let seed = seed.unwrap_or_else(seed_of_clock);
    println!("seed {seed}");
    let inputs = fixed::inputs();
    let fixed = judged(program, inputs.len(), &|at| inputs[at].clone());
    let of_seeds = judged(program, generated::COUNT, &|at| {
        generated::input(seed.wrapping_add(at as u64))
    });
    let missing = of_seeds.occurred.missing();
    println!("the inputs from seeds have {}", of_seeds.occurred);
    for what in &missing {
        println!("--- {what} did not occur");
    }
    for tally in [&fixed, &of_seeds] {
        for (_, shown) in tally.shown.iter().take(SHOWN) {
            println!("{shown}");
        }
    }
    let silent = failing::failures_that_are_not_told(program);
    let told_of = failing::WAYS - silent;
    let failed = fixed.failed + of_seeds.failed + missing.len() + silent;
    told(fixed.passed + of_seeds.passed + told_of, failed)
}

/// Runs the program on the input of one seed, and shows that.
pub fn compare_one(program: &Path, seed: u64) -> ExitCode {
    let input = generated::input(seed);
    let output = input.run(program);
    let fault = fault(&input, &report(&input.bytes), &output);
    println!("{}", shown(&input, &output, fault.unwrap_or("passes")));
    told(usize::from(fault.is_none()), usize::from(fault.is_some()))
}

/// How inputs fared.
#[derive(Default)]
struct Tally {
    passed: usize,
    failed: usize,
    /// the first that failed, each with its place among the inputs
    shown: Vec<(usize, String)>,
    occurred: Occurred,
}

impl Tally {
    fn add(&mut self, other: Tally) {
        self.passed += other.passed;
        self.failed += other.failed;
        self.shown.extend(other.shown);
        self.occurred.add(other.occurred);
    }

    fn failed(&mut self, at: usize, shown: impl FnOnce() -> String) {
        self.failed += 1;
        if self.shown.len() < SHOWN {
            self.shown.push((at, shown()));
        }
    }
}

/// Runs the program on so many inputs, several at a time. Those that failed are in the order of their places.
fn judged(program: &Path, count: usize, input: &(impl Fn(usize) -> Input + Sync)) -> Tally {
    let mut tally = Tally::default();
    thread::scope(|scope| {
        let workers: Vec<_> = (0..WORKERS)
            .map(|first| {
                let places = (first..count).step_by(WORKERS);
                scope.spawn(move || worked(program, places, input))
            })
            .collect();
        for worker in workers {
            tally.add(worker.join().expect("a worker ends"));
        }
    });
    tally.shown.sort();
    tally
}

fn worked(
    program: &Path,
    places: impl Iterator<Item = usize>,
    input: &impl Fn(usize) -> Input,
) -> Tally {
    let mut tally = Tally::default();
    for at in places {
        let input = input(at);
        let expected = report(&input.bytes);
        let output = input.run(program);
        match fault(&input, &expected, &output) {
            Some(fault) => tally.failed(at, || shown(&input, &output, fault)),
            None => tally.passed += 1,
        }
        tally.occurred.see(&expected, input.errors.len());
    }
    tally
}

/// An input with its name, what has to be reported of it, and what the program does.
fn shown(input: &Input, output: &Output, said: &str) -> String {
    let Input { name, bytes, .. } = input;
    let pieces = if input.slowly { " in pieces" } else { "" };
    let parts = [
        format!("--- {name}{pieces} {said}\n{}", text(bytes)),
        format!("--- has to be reported\n{}", text(&report(bytes))),
        format!(
            "--- and is reported ({})\n{}",
            output.status,
            text(&output.stdout)
        ),
        format!("--- with this on standard error\n{}", text(&output.stderr)),
    ];
    let has_errors = !output.stderr.is_empty();
    parts[..3 + usize::from(has_errors)].join("\n")
}
