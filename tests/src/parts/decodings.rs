//! Questions about syndromes and corrections, and errors that are to be corrected.

use super::{Codes, Part};
use crate::cases::{Case, Kind};
use crate::codes::string_of_weight;
use crate::faults::FAULTS;
use crate::published;
use crate::questions::{of_characters, of_pauli, text};
use crate::random::Random;
use crate::record::{Record, LAST_CHANGE};
use crate::samples::{self, any_row, A, K, L, NINE};
use crate::sheet::{self, Letter, Sheet};
use crate::strings::strings_of_weight;
use crate::syndromes::{any_bits, every_bits, light_error, off_form, signed, syndrome};

/// So many generators at most where every syndrome is asked about.
const FEW_GENERATORS: usize = 10;

/// So many qubits at most where every light error is to be corrected.
const FEW_QUBITS: usize = 12;

/// So many syndromes or errors where it is not each of them.
const SOME: usize = 24;

type Questions = Vec<Vec<u8>>;

pub fn parts(codes: &Codes) -> Vec<Part> {
    let mut random = Random(0x5eed_000d_1997);
    let admitted = codes.published.iter().chain(&codes.generated);
    let admitted: Vec<Sheet> = admitted.cloned().collect();
    let others = not_admitted(&mut random, &admitted);
    let refuted = codes.with_longer_distances.iter();
    let refuted: Vec<Sheet> = refuted.flat_map(|sheets| sheets[1..].to_vec()).collect();
    vec![
        Part::kept(kept()),
        Part::kept(kept_changed()),
        Part::kept(
            [A, NINE]
                .map(|text| errors(&mut random, &read(text)))
                .into(),
        ),
        Part::sampled(0, asked(&mut random, &samples())),
        Part::sampled(0, asked(&mut random, &admitted)),
        Part::sampled(0, asked(&mut random, &others)),
        Part::sampled(0, asked(&mut random, &refuted)),
        Part::sampled(0, changed(&mut random)),
        Part::sampled(0, to_be_corrected(&mut random, codes)),
    ]
}

fn read(text: &str) -> Sheet {
    sheet::read_alone(text.as_bytes()).expect("a sheet")
}

/// Sheets with the corrections that are printed of them, and each way in which characters can be off their form.
fn kept() -> Vec<Case> {
    let above = format!("p=9-ZXIYI{}", "XYZ".repeat(9));
    let a = [
        "p=0+XIIII",
        &above,
        "b=0001",
        "b=1010",
        "b=",
        "b=000",
        "b=00010",
        "b=0021",
    ];
    let k = ["s=0", "s=1", "s=", "b=1", "e=3-YZ", "e=0+XI"];
    let l = ["s=010010", "s=010001"];
    let nine = ["e=0+ZIIIIIIII", "e=1-IZIIIIIII", "e=2+IIZIIIIII"];
    let questions = [(A, &a[..]), (K, &k), (L, &l), (NINE, &nine)];
    questions.map(|(text, lines)| asking(lines, text)).into()
}

fn asking(lines: &[&str], sheet: &str) -> Case {
    let questions: Questions = lines.iter().map(|line| line.as_bytes().to_vec()).collect();
    Case::of(Kind::Decodings, text(&questions, sheet.as_bytes()))
}

/// Outside the limits by n, by r and by a mask bit; with a greater d, and with phases above 3.
fn kept_changed() -> Vec<Case> {
    let case = asking(&["p=0+YIIII", "b=1011"], A);
    [2, 4, 15, 10, 14].map(|change| case.changed(change)).into()
}

/// Each sample, and the repetition codes.
fn samples() -> Vec<Sheet> {
    let texts = [samples::published(), samples::repetitions()].concat();
    texts.iter().map(|text| read(text)).collect()
}

/// The codes with other distances, with generators that clash or depend on one another; and rows of any letters.
fn not_admitted(random: &mut Random, codes: &[Sheet]) -> Vec<Sheet> {
    let mut sheets = Vec::new();
    for code in codes {
        let others = [3, 5, 7].into_iter().filter(|&d| d != code.d);
        sheets.extend(others.map(|d| Sheet { d, ..code.clone() }));
        let of_generators = FAULTS.iter().filter(|(number, _)| *number <= 8);
        sheets.extend(of_generators.filter_map(|(_, fault)| fault(random, code)));
    }
    for n in 2..=24 {
        for r in [1, 1 + random.index(n - 1), n - 1] {
            let d = 1 + random.index(7);
            sheets.push(samples::any_rows(random, n, r, d));
        }
    }
    sheets
}

/// For each sheet some questions that are answered in full, and many that are answered in a line.
fn asked(random: &mut Random, sheets: &[Sheet]) -> Vec<Case> {
    let case = |sheet: &Sheet| {
        let record = Record::of(sheet);
        let questions = [in_full(random, &record), in_a_line(random, &record)].concat();
        Case::of(Kind::Decodings, text(&questions, &sheet.text()))
    };
    sheets.iter().map(case).collect()
}

/// Any masks, and an error that is light; syndromes, and characters that are off their form.
fn in_full(random: &mut Random, record: &Record) -> Questions {
    let light = light_error(random, record);
    let paulis = [any_row(random, 32), light.clone()];
    let mut questions = paulis
        .map(|row| of_pauli('p', random.index(10), &row))
        .to_vec();
    let characters = [syndrome(record, &light), any_bits(random, record.r)];
    let characters = characters.into_iter().chain(off_form(random, record.r));
    questions.extend(characters.map(|characters| of_characters('b', &characters)));
    questions
}

/// Every syndrome, or some; then errors, of which each second is light.
fn in_a_line(random: &mut Random, record: &Record) -> Questions {
    let syndromes: Questions = match record.r <= FEW_GENERATORS {
        true => every_bits(record.r),
        false => (0..SOME).map(|_| any_bits(random, record.r)).collect(),
    };
    let mut questions: Questions = syndromes.iter().map(|s| of_characters('s', s)).collect();
    for _ in 0..SOME / 2 {
        let rows = [any_row(random, 32), light_error(random, record)];
        questions.extend(rows.map(|row| of_pauli('e', random.index(10), &row)));
    }
    questions
}

/// Records with each change; the one beside a refused reading is among them.
fn changed(random: &mut Random) -> Vec<Case> {
    let mut sheets: Vec<Sheet> = samples::published().iter().map(|text| read(text)).collect();
    sheets.push(read(&samples::repetition(24)));
    for n in [2, 3, 7, 13, 24] {
        let r = 1 + random.index(n - 1);
        let d = 3 + 2 * random.index(3);
        sheets.push(samples::any_rows(random, n, r, d));
    }
    let texts = sheets.iter().map(|sheet| (Record::of(sheet), sheet.text()));
    let texts = texts.chain([(Record::EMPTY, Vec::new())]);
    let mut cases = Vec::new();
    for (record, sheet) in texts {
        for change in 1..=LAST_CHANGE {
            let questions = in_full(random, &record);
            let case = Case::of(Kind::Decodings, text(&questions, &sheet));
            cases.push(case.changed(change));
        }
    }
    cases
}

/// Errors on codes that are admitted; and a refused sheet.
fn to_be_corrected(random: &mut Random, codes: &Codes) -> Vec<Case> {
    let longer = codes.with_longer_distances.iter().map(|sheets| &sheets[0]);
    let longer = longer.filter(|sheet| sheet.d > 2);
    let codes = codes.published.iter().chain(&codes.generated).chain(longer);
    let mut cases: Vec<Case> = codes.map(|sheet| errors(random, sheet)).collect();
    cases.push(errors(random, &published::golay_and_a_qubit()));
    cases.push(errors(random, &read(&samples::starred()[2])));
    cases
}

/// Every error that the code corrects, with any phase; of many qubits those of weight 1 and some others. The heaviest
/// are first.
fn errors(random: &mut Random, sheet: &Sheet) -> Case {
    let (n, t) = (sheet.n, (sheet.d - 1) / 2);
    let every = match n <= FEW_QUBITS {
        true => t,
        false => t.min(1),
    };
    let mut errors: Vec<Vec<Letter>> = (0..=every).flat_map(|v| strings_of_weight(n, v)).collect();
    for v in every + 1..=t {
        errors.extend((0..SOME).map(|_| string_of_weight(random, n, v)));
    }
    errors.reverse();
    let question = |letters| of_pauli('e', random.index(10), &signed(random, letters));
    let questions: Questions = errors.into_iter().map(question).collect();
    Case::of(Kind::Corrections, text(&questions, &sheet.text()))
}

#[cfg(test)]
mod tests {
    use super::*;
    use crate::answers::answer;
    use crate::guarantee::errors_corrected;

    #[test]
    fn every_part_has_cases() {
        let counts: Vec<usize> = parts(Codes::made())
            .iter()
            .map(|part| part.cases.len())
            .collect();
        assert!(counts.iter().all(|&count| count > 0), "{counts:?}");
        assert!(counts.iter().sum::<usize>() > 3_000, "{counts:?}");
    }

    #[test]
    fn light_errors_on_admitted_codes_are_corrected() {
        let cases = to_be_corrected(&mut Random(51), Codes::made());
        let (mut errors, mut codes) = (0, 0);
        for case in &cases {
            let count = errors_corrected(&case.text, &answer(case)).expect("corrections");
            errors += count;
            codes += usize::from(count > 1);
        }
        assert!(errors > 10_000 && codes > 150, "{errors} on {codes} codes");
    }

    #[test]
    fn what_is_kept_has_every_answer() {
        let cases = [kept(), kept_changed()].concat();
        let answers: Vec<u8> = cases.iter().flat_map(answer).collect();
        let answers = String::from_utf8(answers).unwrap();
        let lines = [
            "short r=17 at=0\n 3\nexact given\n0001 0\nlonger given\n0001 3\n",
            "mask 8 8\nby value 0 1 0\nshort r=17 at=0\n 4\nexact correction\nXIIII 0\n",
            "mask malformed malformed\nshort r=16 at=0\n 4\n",
            "exact none\n 2\nlonger none\n 5\n",
            "\nII\nnone\n r=16 at=0\n",
            "\nIYIIIII\nnone\n",
            &"00000010 IIZIIIIII\n".repeat(3),
            "short r=15 at=0\n",
        ];
        for shown in lines {
            assert!(answers.contains(shown), "{shown}");
        }
    }
}
