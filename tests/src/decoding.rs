//! Syndromes and corrections of a record, which need not be admitted. A correction is found in two ways: by going
//! through all strings in their order, where there are few qubits, and else by looking its syndrome up in a table of
//! light strings.

use crate::record::{put, Pauli, Record};
use crate::sheet::{letters_text, weight, Letter, Refusal, Row};
use crate::strings::{letters_commute, sorted_strings, FEW_QUBITS};
use std::collections::HashMap;
use std::sync::OnceLock;

/// As many bits as a mask has.
const MASK_BITS: usize = 32;

/// A syndrome: one for each generator, in their order.
type Bits = Vec<bool>;

/// What the decode call has written: the letters of a correction, or nothing.
#[derive(Clone, Copy, PartialEq, Eq, Debug)]
pub enum Decoded {
    Correction,
    None,
}

/// What the calls on a record go by.
pub struct Decoder {
    limits: Result<(), Refusal>,
    n: usize,
    t: usize,
    generators: Vec<Vec<Letter>>,
    /// the earliest string of each syndrome that a light string has; the syndrome is a number
    table: OnceLock<HashMap<u32, Vec<Letter>>>,
}

impl Decoder {
    /// Of any record. One outside its limits has a correction by value, and counts there as having no more qubits than
    /// masks have bits, and no more generators than there are places.
    pub fn of(record: &Record) -> Decoder {
        let n = record.n.min(MASK_BITS);
        let used = record.g.iter().take(record.r);
        Decoder {
            limits: record.within_limits().map(|_| ()),
            n,
            t: record.d.saturating_sub(1) / 2,
            generators: used.map(|row| row.letters(n)).collect(),
            table: OnceLock::new(),
        }
    }

    /// The syndrome call: 15, then 17, then r characters at the front of the buffer.
    pub fn write_syndrome(&self, pauli: Pauli, out: &mut [u8]) -> Result<(), Refusal> {
        self.limits?;
        // mask bits above qubit n are no letters here
        let bits = self.syndrome(&pauli.letters(self.n));
        let characters: Vec<u8> = bits.into_iter().map(character).collect();
        put(&characters, out)?;
        Ok(())
    }

    /// The decode call: 15, then 16, then 17, then the correction's letters at the front of the buffer.
    pub fn decode(&self, characters: &[u8], out: &mut [u8]) -> Result<Decoded, Refusal> {
        self.limits?;
        let bits = read_syndrome(self.generators.len(), characters);
        let bits = bits.ok_or(Refusal::new(16, 0))?;
        if out.len() < self.n {
            return Err(Refusal::new(17, 0));
        }
        let Some(letters) = self.correction(&bits) else {
            return Ok(Decoded::None);
        };
        put(&letters_text(&letters), out)?;
        Ok(Decoded::Correction)
    }

    /// The correction for a mask, with sign +. No string has a bit of a generator that is not there.
    pub fn correct(&self, mask: u32) -> Option<Pauli> {
        let bits: Bits = (0..MASK_BITS).map(|at| mask >> at & 1 == 1).collect();
        let (bits, others) = bits.split_at(self.generators.len());
        if others.contains(&true) {
            return None;
        }
        let (minus, letters) = (false, self.correction(bits)?);
        Some(Pauli::of(&Row { minus, letters }))
    }

    fn syndrome(&self, letters: &[Letter]) -> Bits {
        let detects = |row: &Vec<Letter>| !letters_commute(row, letters);
        self.generators.iter().map(detects).collect()
    }

    /// The earliest string of weight at most t with this syndrome.
    fn correction(&self, bits: &[bool]) -> Option<Vec<Letter>> {
        match self.n <= FEW_QUBITS {
            true => self.by_sorting(bits),
            false => self.by_table(bits),
        }
    }

    fn by_sorting(&self, bits: &[bool]) -> Option<Vec<Letter>> {
        let strings = sorted_strings(self.n).iter();
        let mut light = strings.take_while(|letters| weight(letters) <= self.t);
        light
            .find(|letters| self.syndrome(letters) == bits)
            .cloned()
    }

    fn by_table(&self, bits: &[bool]) -> Option<Vec<Letter>> {
        let table = self.table.get_or_init(|| self.light_strings());
        table.get(&number(bits)).cloned()
    }

    /// Of the strings of weight at most t with one syndrome the lightest, and of these the one that sorts first. They
    /// come weight by weight, and those of one weight in another order than that.
    fn light_strings(&self) -> HashMap<u32, Vec<Letter>> {
        let singles = self.singles();
        let mut table: HashMap<u32, Vec<Letter>> = HashMap::new();
        let mut strings = vec![Light::without(self.n)];
        for v in 0..=self.t {
            if v > 0 {
                strings = strings.iter().flat_map(|s| s.heavier(&singles)).collect();
            }
            for Light { letters, bits, .. } in &strings {
                let first = table.entry(*bits).or_insert_with(|| letters.clone());
                if weight(first) == v && letters < first {
                    first.clone_from(letters);
                }
            }
        }
        table
    }

    /// The letters other than I on each qubit, with their syndromes.
    fn singles(&self) -> Vec<Single> {
        let mut singles = Vec::new();
        for qubit in 0..self.n {
            for letter in [Letter::Z, Letter::Y, Letter::X] {
                let mut letters = vec![Letter::I; self.n];
                letters[qubit] = letter;
                let bits = number(&self.syndrome(&letters));
                singles.push(Single {
                    qubit,
                    letter,
                    bits,
                });
            }
        }
        singles
    }
}

struct Single {
    qubit: usize,
    letter: Letter,
    bits: u32,
}

/// A string, its syndrome, and the first of the qubits behind its last letter other than I.
struct Light {
    letters: Vec<Letter>,
    bits: u32,
    behind: usize,
}

impl Light {
    /// The string of I on n qubits.
    fn without(n: usize) -> Light {
        Light {
            letters: vec![Letter::I; n],
            bits: 0,
            behind: 0,
        }
    }

    /// With one more letter, behind the others. A product has the sum of the syndromes.
    fn heavier<'a>(&'a self, singles: &'a [Single]) -> impl Iterator<Item = Light> + 'a {
        let behind = singles.iter().filter(|s| s.qubit >= self.behind);
        behind.map(|single| {
            let mut letters = self.letters.clone();
            letters[single.qubit] = single.letter;
            Light {
                letters,
                bits: self.bits ^ single.bits,
                behind: single.qubit + 1,
            }
        })
    }
}

/// The first generator's bit is the highest.
fn number(bits: &[bool]) -> u32 {
    bits.iter().fold(0, |sum, &bit| 2 * sum + u32::from(bit))
}

fn character(bit: bool) -> u8 {
    match bit {
        true => b'1',
        false => b'0',
    }
}

/// The bits that r characters stand for, or none where they are not r, or not all 0 or 1.
pub fn read_syndrome(r: usize, characters: &[u8]) -> Option<Bits> {
    let bit = |&byte: &u8| [false, true].into_iter().find(|&b| character(b) == byte);
    let bits: Option<Bits> = characters.iter().map(bit).collect();
    bits.filter(|bits| bits.len() == r)
}

/// The mask with the first bit as its lowest. A mask has room for 32.
pub fn mask(bits: &[bool]) -> Option<u32> {
    let reversed: Bits = bits.iter().copied().rev().collect();
    (bits.len() <= MASK_BITS).then(|| number(&reversed))
}

#[cfg(test)]
mod tests {
    use super::*;
    use crate::codes::any_code;
    use crate::product::{commute, product};
    use crate::random::Random;
    use crate::samples::{self, any_row, row, A, K, L, NINE, NINE_OTHER_ROWS};
    use crate::sheet::read_alone;
    use crate::strings::first_of_weight;

    fn record(text: &str) -> Record {
        Record::of(&read_alone(text.as_bytes()).expect(text))
    }

    fn decoder(text: &str) -> Decoder {
        Decoder::of(&record(text))
    }

    /// What the syndrome call gives of letters with sign +.
    fn syndrome(text: &str, letters: &str) -> String {
        let (decoder, mut out) = (decoder(text), [b'.'; 32]);
        let pauli = Pauli::of(&row(&format!("+{letters}")));
        assert_eq!(decoder.write_syndrome(pauli, &mut out), Ok(()));
        let characters = String::from_utf8(out.to_vec()).unwrap();
        characters.trim_end_matches('.').to_string()
    }

    /// What the decode call gives.
    fn decoded(text: &str, characters: &str) -> String {
        let (decoder, mut out) = (decoder(text), [b'.'; 32]);
        match decoder.decode(characters.as_bytes(), &mut out) {
            Ok(Decoded::Correction) => {
                let letters = String::from_utf8(out.to_vec()).unwrap();
                letters.trim_end_matches('.').to_string()
            }
            Ok(Decoded::None) => {
                assert_eq!(out, [b'.'; 32]);
                "none".to_string()
            }
            Err(refusal) => format!("{} {}", refusal.number, refusal.line),
        }
    }

    #[test]
    fn samples_have_their_corrections() {
        assert_eq!(decoded(A, "0001"), "XIIII");
        assert_eq!(decoded(A, "1010"), "ZIIII");
        assert_eq!(syndrome(A, "XIIII"), "0001");
        assert_eq!(syndrome(A, "ZIIII"), "1010");
        assert_eq!(decoded(K, "0"), "II");
        assert_eq!(decoded(K, "1"), "none");
        assert_eq!(decoded(L, "010010"), "IYIIIII");
        assert_eq!(decoded(L, "010001"), "none");
        assert_eq!(syndrome(L, "IYIIIII"), "010010");
        // the first row has X, so a Z on the last qubit shows in the rows of X
        assert_eq!(syndrome(L, "IIIIIIZ"), "111000");
        let three = samples::repetition(3);
        let bits = ["XII", "IXI", "IIX"].map(|letters| syndrome(&three, letters));
        assert_eq!(bits, ["10", "11", "01"]);
    }

    #[test]
    fn z_on_any_qubit_of_a_block_has_one_correction() {
        for text in [NINE, NINE_OTHER_ROWS] {
            let errors = ["ZIIIIIIII", "IZIIIIIII", "IIZIIIIII"];
            let [one, two, three] = errors.map(|letters| syndrome(text, letters));
            assert_eq!([&one, &two], [&three; 2]);
            assert_eq!(decoded(text, &one), "IIZIIIIII");
        }
        assert_eq!(syndrome(NINE, "ZIIIIIIII"), "00000010");
    }

    #[test]
    fn a_syndrome_is_r_characters_0_or_1() {
        let off_form = [
            "", "0", "000", "00000", "000 ", "0002", "000/", "O000", "0000\n", "\n0000", "000\n",
        ];
        for characters in off_form {
            assert_eq!(decoded(A, characters), "16 0", "{characters}");
        }
        assert_eq!(decoded(A, "0000"), "IIIII");
        let read = |characters: &str| {
            let bits = read_syndrome(characters.len(), characters.as_bytes());
            bits.and_then(|bits| mask(&bits))
        };
        assert_eq!(read("001101"), Some(0b101100));
        assert_eq!(read(""), Some(0));
        assert_eq!(read("1x"), None);
        assert_eq!(read(&"1".repeat(32)), Some(u32::MAX));
        assert_eq!(read(&"0".repeat(33)), None);
    }

    #[test]
    fn phases_and_bits_above_qubit_n_change_nothing() {
        let mut random = Random(41);
        for text in samples::published() {
            let record = record(&text);
            let decoder = Decoder::of(&record);
            for _ in 0..50 {
                let [a, b, above] = [(); 3].map(|()| random.below(1 << 32) as u32);
                let below = (1 << record.n) - 1;
                let mut characters = [(); 3].map(|()| [b'.'; 24]);
                let paulis = [
                    (0, a & below, b & below),
                    (7, a & below | above & !below, b & below),
                    (u32::MAX, a, b),
                ];
                for ((p, a, b), out) in paulis.into_iter().zip(&mut characters) {
                    assert_eq!(decoder.write_syndrome(Pauli { p, a, b }, out), Ok(()));
                }
                assert_eq!([characters[1], characters[2]], [characters[0]; 2]);
            }
        }
    }

    #[test]
    fn the_first_fault_is_the_answer_and_leaves_the_buffer() {
        let refusal = |number| Refusal::new(number, 0);
        let mut out = [b'.'; 8];
        let a = decoder(A);
        let x = Pauli { p: 0, a: 1, b: 0 };
        let mut outside = record(A);
        outside.g[31].b = 1;
        let outside = Decoder::of(&outside);
        assert_eq!(outside.write_syndrome(x, &mut out[..1]), Err(refusal(15)));
        assert_eq!(outside.decode(b"0", &mut out[..1]), Err(refusal(15)));
        let empty = Decoder::of(&Record::EMPTY);
        assert_eq!(empty.decode(b"", &mut out), Err(refusal(15)));
        assert_eq!(a.write_syndrome(x, &mut out[..3]), Err(refusal(17)));
        assert_eq!(a.decode(b"00011", &mut out[..4]), Err(refusal(16)));
        assert_eq!(a.decode(b"0001", &mut out[..4]), Err(refusal(17)));
        // where there is no correction n bytes are needed too
        let k = decoder(K);
        assert_eq!(k.decode(b"1", &mut out[..1]), Err(refusal(17)));
        assert_eq!(k.decode(b"1", &mut out[..2]), Ok(Decoded::None));
        assert_eq!(&out, b"........");
        assert_eq!(a.write_syndrome(x, &mut out), Ok(()));
        assert_eq!(&out, b"0001....");
        assert_eq!(a.decode(b"0001", &mut out), Ok(Decoded::Correction));
        assert_eq!(&out, b"XIIII...");
    }

    #[test]
    fn a_correction_by_value_is_that_of_the_call() {
        for text in [A, K, L, NINE] {
            let record = record(text);
            let decoder = Decoder::of(&record);
            for mask in 0..1 << record.r {
                let bit = |at: usize| character(mask >> at & 1 == 1);
                let characters: Vec<u8> = (0..record.r).map(bit).collect();
                let letters = decoder.correct(mask).map(|pauli| pauli.letters(record.n));
                let mut out = vec![b'.'; record.n];
                let called = decoder.decode(&characters, &mut out) == Ok(Decoded::Correction);
                assert_eq!(letters.map(|s| letters_text(&s)), called.then_some(out));
            }
            assert_eq!(decoder.correct(1 << record.r), None);
        }
        let (p, a, b) = (1, 2, 2);
        assert_eq!(decoder(L).correct(0b010010), Some(Pauli { p, a, b }));
    }

    #[test]
    fn a_record_outside_its_limits_has_corrections_by_value() {
        let of = |change: fn(&mut Record)| {
            let mut record = record(A);
            change(&mut record);
            Decoder::of(&record)
        };
        let x = Some(Pauli { p: 0, a: 1, b: 0 });
        let (none, one) = (Decoder::of(&Record::EMPTY), of(|c| c.n = 1));
        let i = Pauli { p: 0, a: 0, b: 0 };
        assert_eq!([none.correct(0), none.correct(1)], [Some(i), None]);
        assert_eq!([one.correct(0b1000), one.correct(0b0001)], [x, None]);
        // 32 qubits and 32 rows, of which the last has X on the last qubit: Y is before Z
        let all = of(|c| (c.n, c.r, c.g[31].a) = (usize::MAX, usize::MAX, 1 << 31));
        let (p, a, b) = (1, 1 << 31, 1 << 31);
        assert_eq!(all.correct(1 << 31), Some(Pauli { p, a, b }));
    }

    /// The definition as it stands, for any n.
    fn by_strings(decoder: &Decoder, bits: &[bool]) -> Option<Vec<Letter>> {
        let mut letters = vec![Letter::I; decoder.n];
        let has_syndrome = |letters: &[Letter]| decoder.syndrome(letters) == bits;
        let of_weight = |v| first_of_weight(&mut letters, 0, v, &has_syndrome);
        let found = (0..=decoder.t).any(of_weight);
        found.then_some(letters)
    }

    #[test]
    fn three_ways_find_the_same() {
        let mut random = Random(42);
        let mut weights = [0; 5];
        for n in (2..=12).flat_map(|n| [n; 6]).chain([16, 20, 24]) {
            let r = n - 1 - random.index(n - 1) / 3;
            let sheet = match random.below(3) {
                0 => samples::any_rows(&mut random, n, r, 7),
                _ => any_code(&mut random, n, r),
            };
            for d in 1..=7 {
                let decoder = Decoder::of(&Record {
                    d,
                    ..Record::of(&sheet)
                });
                for _ in 0..6 {
                    let bits = match random.below(3) {
                        0 => (0..r).map(|_| random.below(2) == 1).collect(),
                        _ => {
                            let v = random.index(4).min(n);
                            decoder.syndrome(&crate::codes::string_of_weight(&mut random, n, v))
                        }
                    };
                    let found = by_strings(&decoder, &bits);
                    assert_eq!(decoder.by_table(&bits), found);
                    if n <= FEW_QUBITS {
                        assert_eq!(decoder.by_sorting(&bits), found);
                    }
                    weights[found.map_or(4, |letters| weight(&letters))] += 1;
                }
            }
        }
        assert!(weights.iter().all(|&count| count > 20), "{weights:?}");
    }

    #[test]
    fn the_syndrome_of_a_product_is_the_sum() {
        let mut random = Random(43);
        for n in 2..=24 {
            let sheet = any_code(&mut random, n, n - 1);
            let decoder = Decoder::of(&Record::of(&sheet));
            let [left, right] = [(); 2].map(|()| any_row(&mut random, n));
            let [one, other] = [&left, &right].map(|row| decoder.syndrome(&row.letters));
            let both = decoder.syndrome(&product(n, [&left, &right]).letters);
            let sum: Bits = one.iter().zip(&other).map(|(l, r)| l ^ r).collect();
            assert_eq!(both, sum);
            let by_products: Bits = sheet
                .generators
                .iter()
                .map(|g| !commute(g, &left))
                .collect();
            assert_eq!(one, by_products);
        }
    }
}
