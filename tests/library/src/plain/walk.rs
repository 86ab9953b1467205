//! Walks through strings of letters, from the earliest on.

use super::words::Words;
use reinoften::Code;

/// The masks of a string.
pub type Masks = (u32, u32);

/// A form of the walk, by words, through the strings of at most a weight.
pub trait Walk: Sized {
    fn of(words: Words, most: usize) -> Self;

    /// The correction for one syndrome of a code. No second word is 1, so no string is passed over.
    fn correct(code: &Code, syndrome: u32) -> Option<Masks> {
        Self::of(Words::of_syndromes(code), radius(code)).earliest(syndrome, 1)
    }

    /// The earliest string whose first words sum to the wanted word and whose second words do not sum to the shunned
    /// one.
    fn earliest(&self, want: u32, shun: u64) -> Option<Masks>;
}

/// How many struck qubits are corrected.
pub fn radius(code: &Code) -> usize {
    (code.d - 1) / 2
}

/// At the last letter all words of the qubits that are left are scanned.
pub struct Scan {
    words: Words,
    most: usize,
}

impl Walk for Scan {
    fn of(words: Words, most: usize) -> Scan {
        Scan { words, most }
    }

    fn earliest(&self, want: u32, shun: u64) -> Option<Masks> {
        let (first, second) = self.words.on(self.words.qubits);
        (0..=self.most).find_map(|weight| of_weight(first, second, weight, want, shun))
    }
}

/// The earliest string of a weight on the last qubits, those that have words.
pub fn of_weight(
    first: &[u32],
    second: &[u64],
    weight: usize,
    want: u32,
    shun: u64,
) -> Option<Masks> {
    let qubits = first.len() / 3;
    match weight {
        0 => (want == 0 && shun != 0).then_some((0, 0)),
        // few strings get past the first test
        1 if !occurs(first, want) => None,
        1 => single(first, second, want, shun),
        _ => (3 * (weight - 1)..3 * qubits).find_map(|place| {
            let right = place / 3 * 3;
            let (want, shun) = (want ^ first[place], shun ^ second[place]);
            let rest = of_weight(&first[..right], &second[..right], weight - 1, want, shun)?;
            Some(placed(qubits, place, rest))
        }),
    }
}

/// Whether the word is among the words. A scan that always goes to its end is compiled to compare several words at
/// once, and is faster here than `contains`.
#[inline(always)]
fn occurs(words: &[u32], want: u32) -> bool {
    words
        .iter()
        .fold(false, |found, &word| found | (word == want))
}

/// The earliest string of one letter.
pub fn single(first: &[u32], second: &[u64], want: u32, shun: u64) -> Option<Masks> {
    let mut words = first.iter().zip(second);
    let place = words.position(|(&one, &other)| one == want && other != shun)?;
    Some(placed(first.len() / 3, place, (0, 0)))
}

/// The letter of a place, and behind it the string of these masks.
pub fn placed(qubits: usize, place: usize, (a, b): Masks) -> Masks {
    let gap = qubits - place / 3 - 1;
    let (x, z) = [(1, 0), (1, 1), (0, 1)][place % 3];
    ((x + 2 * a) << gap, (z + 2 * b) << gap)
}
