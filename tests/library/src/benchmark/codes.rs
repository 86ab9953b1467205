//! The codes that are timed, and syndromes of them.

use crate::plain::{self, Table};
use independent::classical::blocks;
use independent::codes::{claiming, completed, string_of_weight, with_qubits, MOST_DISTANCE};
use independent::published::golay_and_a_qubit;
use independent::random::Random;
use independent::sheet::{self, letters_text, line, Letter, Row, Sheet};
use independent::strings::strings_of_weight;
use independent::syndromes::any_bits;
use independent::{logical_errors, record, samples};
use reinoften::{Code, Pauli};

/// The most bytes of an input.
const LONGEST_INPUT: usize = 4096;

/// So many syndromes are tried for one that has no correction.
const TRIES: usize = 1000;

/// A code with the name by which it is known.
pub struct Known {
    name: &'static str,
    pub sheet: Vec<u8>,
    pub code: Code,
}

/// Where the search for its correction ends, and the characters.
pub type Syndrome = (&'static str, Vec<u8>);

impl Known {
    pub fn of(name: &'static str, sheet: &Sheet) -> Known {
        let sheet = sheet.text();
        let code = reinoften::read_sheet(&sheet).expect("the sheet is admitted");
        Known { name, sheet, code }
    }

    pub fn name(&self) -> String {
        let Code { n, r, d, .. } = self.code;
        format!("{} [[{n},{},{d}]]", self.name, n - r)
    }

    fn t(&self) -> usize {
        (self.code.d - 1) / 2
    }

    /// The syndromes of the first and of the last error that is its own correction and not I, and one that has no
    /// correction, where there is one.
    pub fn syndromes(&self) -> Vec<Syndrome> {
        let own = |letters: Vec<Letter>| {
            let syndrome = self.syndrome(&letters);
            let is_own = self.correction(&syndrome) == Some(letters_text(&letters));
            is_own.then_some(syndrome)
        };
        let mut light = strings_of_weight(self.code.n, 1).into_iter();
        let heavy = strings_of_weight(self.code.n, self.t());
        let named = [
            ("early", light.find_map(own)),
            ("late", heavy.into_iter().rev().find_map(own)),
            ("none", self.without_correction()),
        ];
        let there = named.into_iter();
        there
            .filter_map(|(name, syndrome)| Some((name, syndrome?)))
            .collect()
    }

    fn syndrome(&self, letters: &[Letter]) -> Vec<u8> {
        let (minus, letters) = (false, letters.to_vec());
        let record::Pauli { p, a, b } = record::Pauli::of(&Row { minus, letters });
        let mut characters = vec![0; self.code.r];
        let written = self.code.syndrome(Pauli { p, a, b }, &mut characters);
        written.expect("room for r characters");
        characters
    }

    fn correction(&self, syndrome: &[u8]) -> Option<Vec<u8>> {
        let mut letters = vec![0; self.code.n];
        let answer = plain::decode::<Table>(self.code, syndrome, &mut letters);
        answer.expect("a syndrome and room").map(|_| letters)
    }

    fn without_correction(&self) -> Option<Vec<u8>> {
        let mut random = Random(71);
        let mut tried = (0..TRIES).map(|_| any_bits(&mut random, self.code.r));
        tried.find(|syndrome| self.correction(syndrome).is_none())
    }

    /// How many lines of syndromes have room in an input behind the sheet.
    pub fn most_syndromes(&self) -> usize {
        (LONGEST_INPUT - self.sheet.len()) / (self.code.r + 3)
    }

    /// The sheet with syndromes of so many errors that are corrected.
    pub fn with_syndromes(&self, count: usize) -> Vec<u8> {
        let mut random = Random(72);
        let mut input = self.sheet.clone();
        for _ in 0..count {
            let weight = random.index(self.t() + 1);
            let error = string_of_weight(&mut random, self.code.n, weight);
            input.extend(line("s=", &self.syndrome(&error)));
        }
        input
    }
}

/// Codes of the literature; and where there is none with so many qubits, with qubits added.
pub fn known() -> Vec<Known> {
    let blocks = completed(blocks(3, 8));
    vec![
        Known::of("five-qubit", &five()),
        Known::of("Steane", &read(samples::L)),
        Known::of("Shor", &read(samples::NINE)),
        Known::of(
            "Gottesman",
            &read(include_str!("../../../../samples/sixteen-qubit.sheet")),
        ),
        Known::of("cyclic and 3 qubits", &with_qubits(&cyclic_13(), 16)),
        Known::of("Shor, 3 blocks of 8", &claimed(blocks)),
        Known::of("cyclic and 11 qubits", &with_qubits(&cyclic_13(), 24)),
        Known::of("cyclic", &cyclic_17()),
        Known::of(
            "Golay",
            &read(include_str!("../../../../samples/golay-23.sheet")),
        ),
        Known::of("Golay and a qubit", &golay_and_a_qubit()),
    ]
}

/// The [[5,1,3]] code.
pub fn five() -> Sheet {
    read(samples::A)
}

/// The [[13,1,5]] code of shifts of XZZX.
pub fn cyclic_13() -> Sheet {
    cyclic(&["XZIIIZXIIIIII"], 12)
}

/// The [[17,1,7]] code that is linear over four elements: shifts of a row and of its multiple.
pub fn cyclic_17() -> Sheet {
    cyclic(&["XYZZIIZZYXIIIIIII", "ZXYYIIYYXZIIIIIII"], 8)
}

/// Of so many shifts of each row.
fn cyclic(rows: &[&str], shifts: usize) -> Sheet {
    let shifted = |letters: &str, by: usize| {
        let mut letters = sheet::letters(letters.as_bytes(), letters.len()).expect("letters");
        letters.rotate_right(by);
        let minus = false;
        Row { minus, letters }
    };
    let rows = (0..shifts).flat_map(|by| rows.iter().map(move |letters| shifted(letters, by)));
    claimed(completed(rows.collect()))
}

/// The sheet with its distance.
fn claimed(sheet: Sheet) -> Sheet {
    let earliest = logical_errors::earliest(&sheet, MOST_DISTANCE);
    claiming(&sheet, earliest.expect("a distance that a sheet may claim"))
}

/// Behind a sheet its syndromes may stand.
fn read(text: &str) -> Sheet {
    let (sheet, _) = sheet::read_lines(text.as_bytes()).expect("a sheet");
    sheet
}

#[cfg(test)]
mod tests {
    use super::*;

    #[test]
    fn codes_have_their_sizes() {
        let sizes = known().iter().map(Known::name).collect::<Vec<_>>();
        let printed = [
            "five-qubit [[5,1,3]]",
            "Steane [[7,1,3]]",
            "Shor [[9,1,3]]",
            "Gottesman [[16,10,3]]",
            "cyclic and 3 qubits [[16,1,5]]",
            "Shor, 3 blocks of 8 [[24,1,3]]",
            "cyclic and 11 qubits [[24,1,5]]",
            "cyclic [[17,1,7]]",
            "Golay [[23,1,7]]",
            "Golay and a qubit [[24,1,7]]",
        ];
        assert_eq!(sizes, printed);
    }

    #[test]
    fn syndromes_end_the_search_where_they_should() {
        for code in known() {
            let syndromes = code.syndromes();
            // the five-qubit code has a correction for each
            assert_eq!(
                syndromes.len(),
                if code.name == "five-qubit" { 2 } else { 3 }
            );
            for (name, syndrome) in &syndromes {
                let weight = code
                    .correction(syndrome)
                    .map(|letters| letters.iter().filter(|&&l| l != b'I').count());
                let expected = match *name {
                    "early" => Some(1),
                    "late" => Some(code.t()),
                    _ => None,
                };
                assert_eq!(weight, expected, "{} {name}", code.name);
            }
        }
    }

    #[test]
    fn a_qubit_can_be_added_to_the_golay_code() {
        let golay = read(include_str!("../../../../samples/golay-23.sheet"));
        let longer = with_qubits(&golay, 24);
        assert_eq!(longer.d, 7);
        assert_eq!(longer.generators, golay_and_a_qubit().generators);
    }
}
