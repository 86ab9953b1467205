//! The third guarantee as a check of what the programs write: where a sheet is admitted, each error of weight at most t
//! has a correction, which is no heavier, and the product of the two is in the group, phase aside. Where a distance is
//! refuted, the two errors that are shown are too light together for it, and their product is a logical error. The
//! check knows nothing of syndromes: it multiplies letters, and looks for the product among the members.

use crate::logical_errors::Undetected;
use crate::product::product;
use crate::questions::{self, Question};
use crate::sheet::{self, letters, weight, Letter, Row, Sheet};
use std::iter;

/// The cycle of the first error has so many lines. The letters in a buffer of n bytes are the first word of this one.
const CYCLE_LINES: usize = 6;
const CYCLE_LETTERS: usize = 3;

/// How many errors the answer to a case shows to be corrected; or none where it shows one that is not. The first line
/// says whether the sheet is admitted. Then there is the cycle of the first error, and for each error a line with its
/// correction as the last word.
pub fn errors_corrected(text: &[u8], answer: &[u8]) -> Option<usize> {
    let (questions, sheet) = questions::read(text);
    let mut lines = answer.strip_suffix(b"\n")?.split(|&byte| byte == b'\n');
    if lines.next()? != b"corrections admitted" {
        return Some(0);
    }
    let sheet = sheet::read_alone(sheet).ok()?;
    let cycle: Vec<&[u8]> = lines.by_ref().take(CYCLE_LINES).collect();
    let by_cycle = cycle.get(CYCLE_LETTERS)?.split(|&byte| byte == b' ').next();
    let by_decode = lines.map(|line| line.rsplit(|&byte| byte == b' ').next());
    let shown: Vec<Option<&[u8]>> = iter::once(by_cycle).chain(by_decode).collect();
    let errors = questions.first().into_iter().chain(&questions);
    let errors: Vec<Vec<Letter>> = errors.map(|question| error(question, &sheet)).collect();
    each_corrected(&sheet, &errors, &shown).then_some(questions.len())
}

/// Whether the `c=` lines of a report have a correction of each of the errors, in their order.
pub fn report_corrects(sheet: &Sheet, errors: &[Vec<Letter>], report: &[u8]) -> bool {
    let lines = report.split(|&byte| byte == b'\n');
    let shown: Vec<Option<&[u8]>> = lines
        .filter_map(|line| line.strip_prefix(b"c="))
        .map(Some)
        .collect();
    each_corrected(sheet, errors, &shown)
}

/// Whether the two errors that a report of 14 shows refute the distance.
pub fn report_refutes(sheet: &Sheet, report: &[u8]) -> bool {
    let shown = |key: &[u8]| {
        let mut lines = report.split(|&byte| byte == b'\n');
        lines.find_map(|line| letters(line.strip_prefix(key)?, sheet.n))
    };
    let (Some(one), Some(other)) = (shown(b"e="), shown(b"f=")) else {
        return false;
    };
    let code = Undetected::of(&sheet.generators);
    weight(&one) + weight(&other) < sheet.d && code.has_logical(&letters_product(&one, &other))
}

fn each_corrected(sheet: &Sheet, errors: &[Vec<Letter>], shown: &[Option<&[u8]>]) -> bool {
    let code = Undetected::of(&sheet.generators);
    let corrected = |(error, shown): (&Vec<Letter>, &Option<&[u8]>)| {
        let correction = shown.and_then(|shown| letters(shown, sheet.n));
        correction.is_some_and(|correction| corrects(&code, &correction, error))
    };
    shown.len() == errors.len() && errors.iter().zip(shown).all(corrected)
}

/// The letters of an error. Nothing is promised of one that is heavier than t.
fn error(question: &Question, sheet: &Sheet) -> Vec<Letter> {
    let Question::Error(error) = question else {
        panic!("a case with errors alone");
    };
    let error = error.letters(sheet.n);
    assert!(weight(&error) <= (sheet.d - 1) / 2, "too heavy an error");
    error
}

fn corrects(code: &Undetected, correction: &[Letter], error: &[Letter]) -> bool {
    weight(correction) <= weight(error) && code.is_member(&letters_product(correction, error))
}

fn letters_product(left: &[Letter], right: &[Letter]) -> Vec<Letter> {
    let [left, right] = [left, right].map(|letters| Row {
        minus: false,
        letters: letters.to_vec(),
    });
    product(left.letters.len(), [&left, &right]).letters
}

#[cfg(test)]
mod tests {
    use super::*;
    use crate::samples::{A, K, NINE};

    /// A cycle with these letters.
    fn cycle(letters: &str) -> String {
        format!(
            "short r=17 at=0\n .\nexact correction\n{letters} 0\nlonger correction\n{letters} 3\n"
        )
    }

    /// Errors, and what is shown of them. The first is shown twice.
    fn shown(text: &str, errors: &[(&str, &str)]) -> Option<usize> {
        let questions = errors.iter().map(|(error, _)| format!("e=3-{error}\n"));
        let lines = errors
            .iter()
            .map(|(_, correction)| format!("{correction}\n"));
        let text = questions.collect::<String>() + "\n" + text;
        let lines: Vec<String> = lines.collect();
        let first = lines[0].split(' ').next_back().unwrap_or("").trim_end();
        let answer = "corrections admitted\n".to_string() + &cycle(first) + &lines.concat();
        errors_corrected(text.as_bytes(), answer.as_bytes())
    }

    #[test]
    fn corrections_that_correct() {
        let errors = [("XIIII", "0001 XIIII"), ("IIIII", "0000 IIIII")];
        assert_eq!(shown(A, &errors), Some(2));
        let z = "00000010 IIZIIIIII";
        let shared = ["ZIIIIIIII", "IZIIIIIII", "IIZIIIIII"].map(|error| (error, z));
        assert_eq!(shown(NINE, &shared), Some(3));
        assert_eq!(shown(K, &[("II", "0 II")]), Some(1));
    }

    #[test]
    fn corrections_that_do_not() {
        let wrong = [
            "0001 ZIIII",
            "0001 IIIII",
            "0001 none",
            // in the group together with the error, but too heavy
            "0001 IZZXI",
            "0001 XIII",
            "0001  r=17 at=0",
            "",
        ];
        for line in wrong {
            assert_eq!(shown(A, &[("XIIII", line)]), None, "{line}");
            let second = [("ZIIII", "1010 ZIIII"), ("XIIII", line)];
            assert_eq!(shown(A, &second), None, "{line}");
        }
        assert_eq!(shown(NINE, &[("ZIIIIIIII", "00000010 IIIIIIIIZ")]), None);
    }

    #[test]
    fn the_corrections_of_a_report() {
        let sheet = sheet::read_alone(NINE.as_bytes()).unwrap();
        let errors = ["ZIIIIIIII", "IIIIIIIII"].map(|error| letters(error.as_bytes(), 9).unwrap());
        let corrects = |lines: &str| {
            let report = format!("n=9\nk=1\nd=3\nt=1\nh=+ZIZIIIIII\n{lines}");
            report_corrects(&sheet, &errors, report.as_bytes())
        };
        assert!(corrects("c=IIZIIIIII\nc=IIIIIIIII\n"));
        assert!(!corrects("c=IIZIIIIII\nc=ZZIIIIIII\n"));
        assert!(!corrects("c=IIIIIIZII\nc=IIIIIIIII\n"));
        assert!(!corrects("c=none\nc=IIIIIIIII\n"));
        assert!(!corrects("c=IIZIIIIII\n"));
        assert!(!report_corrects(&sheet, &errors, b"r=16\nat=13\n"));
    }

    #[test]
    fn the_two_errors_of_a_report() {
        let sheet = A.replace("d=3", "d=5").replace("w=IYYIX", "w=XXXXX");
        let sheet = sheet::read_alone(sheet.as_bytes()).unwrap();
        let refutes = |lines: &str| {
            let report = format!("r=14\nat=9\n{lines}");
            report_refutes(&sheet, report.as_bytes())
        };
        assert!(refutes("e=IIXYI\nf=IIIIX\n"));
        assert!(!refutes("e=IIXYI\nf=IIIIY\n"));
        assert!(!refutes("e=IIXYI\nf=IIXYI\n"));
        // in the group, and too heavy
        assert!(!refutes("e=XZIII\nf=IIZXI\n"));
        assert!(!refutes("e=XXXXX\nf=IIIII\n"));
        assert!(!refutes("e=IIXYI\n"));
    }

    #[test]
    fn an_error_that_is_left_out_and_a_sheet_that_is_refused() {
        let text = format!("e=0+II\ne=1+II\n\n{K}");
        let admitted = "corrections admitted\n".to_string() + &cycle("II");
        let all = &format!("{admitted}0 II\n0 II\n");
        let missing = &format!("{admitted}0 II\n");
        let refused = "corrections r=2 at=1\n";
        let corrected = |answer: &str| errors_corrected(text.as_bytes(), answer.as_bytes());
        assert_eq!(corrected(all), Some(2));
        assert_eq!(corrected(missing), None);
        assert_eq!(corrected(refused), Some(0));
        assert_eq!(
            corrected(&all.replace("exact correction\nII 0", "exact none\n 2")),
            None
        );
    }
}
