//! What can be wrong with what the program does.

use super::Input;
use crate::guarantee::{report_corrects, report_refutes};
use crate::sheet::read_lines;
use std::process::Output;

/// What is wrong with what the program did, where something is. It has to report as it is done here; and where the
/// guarantees say something of its report, that has to hold of what it wrote.
pub fn fault(input: &Input, expected: &[u8], output: &Output) -> Option<&'static str> {
    if !output.status.success() {
        return Some("ends the program without success");
    }
    if output.stdout != expected {
        return Some("has another report");
    }
    if !output.stderr.is_empty() {
        return Some("has something on standard error");
    }
    if input.kept.as_deref().is_some_and(|kept| kept != expected) {
        return Some("has another report kept with it");
    }
    unfulfilled(input, &output.stdout)
}

/// Which guarantee does not hold of the report.
fn unfulfilled(input: &Input, report: &[u8]) -> Option<&'static str> {
    let refuted = report.starts_with(b"r=14\n");
    if input.errors.is_empty() && !refuted {
        return None;
    }
    let Ok((sheet, _)) = read_lines(&input.bytes) else {
        return Some("is no sheet, and is not refused as that");
    };
    if refuted && !report_refutes(&sheet, report) {
        return Some("is refuted by errors that do not refute it");
    }
    if !input.errors.is_empty() && !report_corrects(&sheet, &input.errors, report) {
        return Some("has a light error that is not corrected");
    }
    None
}

#[cfg(test)]
mod tests {
    use super::*;
    use crate::report::report;
    use crate::samples::{self, A};
    use crate::sheet::{letters, Letter};
    use std::os::unix::process::ExitStatusExt;
    use std::process::ExitStatus;

    fn output(stdout: &[u8]) -> Output {
        Output {
            status: ExitStatus::from_raw(0),
            stdout: stdout.to_vec(),
            stderr: Vec::new(),
        }
    }

    /// A with the syndrome of X on its first qubit, as that of some error.
    fn input(error: &str) -> Input {
        let bytes = A.to_string() + "s=0001\n";
        Input {
            errors: vec![letters(error.as_bytes(), 5).unwrap()],
            ..Input::from(bytes.into_bytes())
        }
    }

    #[test]
    fn a_right_report_has_no_fault() {
        let input = input("XIIII");
        let expected = report(&input.bytes);
        assert_eq!(fault(&input, &expected, &output(&expected)), None);
        let kept = Some(expected.clone());
        let input = Input { kept, ..input };
        assert_eq!(fault(&input, &expected, &output(&expected)), None);
    }

    #[test]
    fn each_fault_is_told() {
        let input = input("XIIII");
        let expected = report(&input.bytes);
        let right = output(&expected);
        let told = |output: &Output| fault(&input, &expected, output).expect("a fault");
        let mut ended = right.clone();
        ended.status = ExitStatus::from_raw(256);
        assert_eq!(told(&ended), "ends the program without success");
        let shorter = output(&expected[..expected.len() - 1]);
        assert_eq!(told(&shorter), "has another report");
        let mut loud = right.clone();
        loud.stderr.push(b'\n');
        assert_eq!(told(&loud), "has something on standard error");
        let kept = Some(b"r=2\nat=1\n".to_vec());
        let with_other = Input {
            kept,
            ..input.clone()
        };
        let told = fault(&with_other, &expected, &right);
        assert_eq!(told, Some("has another report kept with it"));
    }

    /// Reports that are the same as here, and wrong all the same.
    #[test]
    fn each_guarantee_is_looked_at() {
        let wrong = input("ZIIII");
        let expected = report(&wrong.bytes);
        let told = fault(&wrong, &expected, &output(&expected));
        assert_eq!(told, Some("has a light error that is not corrected"));
        let refuted: Input = samples::starred()[2].clone().into_bytes().into();
        let expected = report(&refuted.bytes);
        assert_eq!(fault(&refuted, &expected, &output(&expected)), None);
        let wrong = b"r=14\nat=9\ne=IIXYI\nf=IIIIY\n";
        let told = fault(&refuted, wrong, &output(wrong));
        assert_eq!(told, Some("is refuted by errors that do not refute it"));
        let no_sheet = Input {
            errors: vec![vec![Letter::I; 5]],
            ..Input::default()
        };
        assert!(fault(&no_sheet, b"", &output(b"")).is_some());
    }
}
