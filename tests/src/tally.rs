//! How a run that compares ends.

use std::process::ExitCode;

/// The last line, which the gate sums up, and the exit status.
pub fn told(passed: usize, failed: usize) -> ExitCode {
    println!("{passed} passed, {failed} failed");
    ExitCode::from(u8::from(failed > 0))
}
