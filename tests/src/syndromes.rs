//! Light errors, characters of syndromes, and characters that are none.

use crate::codes::string_of_weight;
use crate::decoding::Decoder;
use crate::random::Random;
use crate::record::{Pauli, Record};
use crate::sheet::{Letter, Row};

/// Bytes that are neither 0 nor 1.
const OTHERS: &[u8] = b"2/:Ol \0\r\xb1";

/// An error of weight t + 1 at most, or 3 at most where t is less than that.
pub fn light_error(random: &mut Random, record: &Record) -> Row {
    let n = record.n.max(1);
    let t = record.d.saturating_sub(1) / 2;
    let v = random.index(t.max(2) + 2).min(n);
    let letters = string_of_weight(random, n, v);
    signed(random, letters)
}

/// The letters with any sign.
pub fn signed(random: &mut Random, letters: Vec<Letter>) -> Row {
    let minus = random.below(2) == 0;
    Row { minus, letters }
}

/// The characters of a row's syndrome; none where the record is outside its limits.
pub fn syndrome(record: &Record, row: &Row) -> Vec<u8> {
    let mut characters = vec![b'.'; record.r];
    let written = Decoder::of(record).write_syndrome(Pauli::of(row), &mut characters);
    written.map_or(Vec::new(), |()| characters)
}

pub fn any_bits(random: &mut Random, r: usize) -> Vec<u8> {
    (0..r).map(|_| random.pick(b"01")).collect()
}

/// All r characters.
pub fn every_bits(r: usize) -> Vec<Vec<u8>> {
    let bits = |number: u32| (0..r).map(move |at| b"01"[(number >> at & 1) as usize]);
    (0..1 << r).map(|number| bits(number).collect()).collect()
}

/// None, one too few, one too many, as many as a mask has room for and more, and another byte among them.
pub fn off_form(random: &mut Random, r: usize) -> Vec<Vec<u8>> {
    let lengths = [
        0,
        r.saturating_sub(1),
        r + 1,
        random.pick(&[25, 32, 33, 60]),
    ];
    let mut characters = lengths.map(|len| any_bits(random, len)).to_vec();
    let mut other = any_bits(random, r.max(1));
    let at = random.index(other.len());
    other[at] = random.pick(OTHERS);
    characters.push(other);
    characters
}
