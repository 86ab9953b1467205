//! Inputs whose reports are written into buffers of several lengths.

use super::{unchanged, Part};
use crate::cases::{Case, Kind, LONGEST_TEXT};
use crate::codes::{any_code, with_distance};
use crate::damage::filled;
use crate::random::Random;
use crate::reports::{fixed_inputs, inputs_of_round, MOST_BYTES};
use crate::samples::{self, A, EIGHT, K, L, NINE};
use crate::sheet::line;
use crate::syndromes::{any_bits, every_bits};

type Texts = Vec<Vec<u8>>;

/// One of so many inputs from seeds is taken. It has no divisor in common with the number of sizes, so that the sizes
/// differ from kind to kind.
const STEP: usize = 19;

pub fn parts() -> Vec<Part> {
    let mut random = Random(0x5eed_0010_1997);
    vec![
        Part::kept(inputs(kept())),
        Part::sampled(0, inputs(every_syndrome())),
        Part::sampled(0, inputs(one_generator(&mut random))),
        Part::sampled(0, inputs(short_enough(fixed_inputs()))),
        Part::sampled(0, inputs(short_enough(inputs_of_round(STEP)))),
    ]
}

fn inputs<T: Into<Vec<u8>>>(texts: impl IntoIterator<Item = T>) -> Vec<Case> {
    unchanged(Kind::Report, texts)
}

fn short_enough(texts: impl Iterator<Item = Vec<u8>>) -> Texts {
    texts.filter(|text| text.len() <= LONGEST_TEXT).collect()
}

/// Corrections and none; no byte at all; a refuted distance, with the two errors; a line that is no syndrome's.
fn kept() -> [String; 4] {
    [
        K.to_string() + "s=0\ns=1\n",
        String::new(),
        samples::starred()[2].clone(),
        K.to_string() + "s=1\ns=10\n",
    ]
}

/// Each syndrome there is. Some codes have a correction for each, and others have none for some.
fn every_syndrome() -> Texts {
    let asked = |text: &str| {
        let r = text.matches("g=").count();
        let lines = every_bits(r).into_iter().flat_map(|bits| line("s=", &bits));
        text.bytes().chain(lines).collect()
    };
    [A, K, L, NINE, EIGHT].map(asked).into()
}

/// As many lines as there may be, and none are shorter, so that the reports are long. In one of two inputs each line
/// has a correction, and in the other some have none.
fn one_generator(random: &mut Random) -> Texts {
    let mut texts = Texts::new();
    for n in 2..=24 {
        let code = any_code(random, n, 1);
        let sheet = with_distance(random, &code).expect("a light logical error");
        let mut text = sheet.text();
        let lines = (MOST_BYTES - text.len()) / b"s=0\n".len();
        texts.push(filled(&text, b"s=0\n", text.len() + lines * b"s=0\n".len()));
        text.extend((0..lines).flat_map(|_| line("s=", &any_bits(random, 1))));
        texts.push(text);
    }
    texts
}

#[cfg(test)]
mod tests {
    use super::*;
    use crate::answers::answer;
    use crate::report::report;

    #[test]
    fn every_part_has_cases() {
        let counts: Vec<usize> = parts().iter().map(|part| part.cases.len()).collect();
        assert!(counts.iter().all(|&count| count > 0), "{counts:?}");
        assert!(counts.iter().sum::<usize>() > 1_000, "{counts:?}");
    }

    #[test]
    fn what_is_kept_has_every_answer() {
        let answers = inputs(kept()).iter().flat_map(answer).collect();
        let answers = String::from_utf8(answers).unwrap();
        let k = "n=2\nk=1\nd=1\nt=0\nh=+ZZ\nc=II\nc=none\n";
        let shown = [
            &format!("longer 34\n{k} 32734\nshort r=17 at=0\n 33\nexact 34\n{k} 0\n"),
            "longer 9\nr=2\nat=1\n 32759\nshort r=17 at=0\n 8\nexact 9\nr=2\nat=1\n 0\n",
            "exact 26\nr=14\nat=9\ne=IIXYI\nf=IIIIX\n 0\n",
            "exact 10\nr=16\nat=8\n 0\n",
        ];
        for shown in shown {
            assert!(answers.contains(shown), "{shown}");
        }
    }

    #[test]
    fn reports_are_long_and_have_corrections_beside_none() {
        let texts = [every_syndrome(), one_generator(&mut Random(71))].concat();
        let reports: Texts = texts.iter().map(|text| report(text)).collect();
        let lengths = reports.iter().map(Vec::len);
        assert!(lengths.max() > Some(18_000));
        let mixed = reports.iter().filter(|report| {
            let lines: Vec<&[u8]> = report.split(|&byte| byte == b'\n').collect();
            let corrections = lines.iter().filter(|line| line.starts_with(b"c="));
            let nones = lines.iter().filter(|line| **line == b"c=none").count();
            0 < nones && nones < corrections.count()
        });
        assert_eq!(mixed.count(), 23 + 4);
    }
}
