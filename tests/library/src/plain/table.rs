//! The walk with a table in front of the scan of the last letter, as the library has it.

use super::walk::{of_weight, placed, radius, single, Masks, Walk};
use super::words::Words;
use reinoften::Code;

const SLOTS: usize = 4096;

/// For each slot the first place that has a word of it. By this most words are known not to stand before a place.
type Places = [u8; SLOTS];

/// What stands in a slot that no word has.
const NOWHERE: u8 = u8::MAX;

fn slot(word: u32) -> usize {
    (word ^ word >> 12) as usize % SLOTS
}

fn places(words: &[u32]) -> Places {
    let mut places = [NOWHERE; SLOTS];
    for (place, &word) in words.iter().enumerate().rev() {
        places[slot(word)] = place as u8;
    }
    places
}

/// The table is made where a search gets to strings of two letters.
pub struct Table {
    words: Words,
    most: usize,
}

impl Walk for Table {
    fn of(words: Words, most: usize) -> Table {
        Table { words, most }
    }

    /// One letter is looked for without words.
    fn correct(code: &Code, syndrome: u32) -> Option<Masks> {
        let t = radius(code);
        if syndrome == 0 {
            return Some((0, 0));
        }
        let found = if t == 0 { None } else { lone(code, syndrome) };
        if found.is_some() || t < 2 {
            return found;
        }
        Table::of(Words::of_syndromes(code), t).earliest(syndrome, 1)
    }

    fn earliest(&self, want: u32, shun: u64) -> Option<Masks> {
        let (first, second) = self.words.on(self.words.qubits);
        let mut light = 0..=self.most.min(1);
        let found = light.find_map(|weight| of_weight(first, second, weight, want, shun));
        if found.is_some() || self.most < 2 {
            return found;
        }
        let places = &places(first);
        let mut heavy = 2..=self.most;
        heavy.find_map(|weight| self.walk(places, self.words.qubits, weight, want, shun))
    }
}

/// The earliest letter with a syndrome: for X, Y and Z those qubits stay whose letter has each generator's bit.
fn lone(code: &Code, syndrome: u32) -> Option<Masks> {
    let mut fitting = [u32::MAX; 3];
    for (place, row) in code.g[..code.r].iter().enumerate() {
        let unwanted = (syndrome >> place & 1).wrapping_sub(1);
        for (set, mask) in fitting.iter_mut().zip([row.b, row.a ^ row.b, row.a]) {
            *set &= mask ^ unwanted;
        }
    }
    (0..code.n).rev().find_map(|qubit| {
        let letter = fitting.iter().position(|set| set >> qubit & 1 == 1)?;
        let (x, z) = [(1, 0), (1, 1), (0, 1)][letter];
        Some((x << qubit, z << qubit))
    })
}

impl Table {
    /// The earliest string of a weight on the last qubits.
    fn walk(
        &self,
        places: &Places,
        qubits: usize,
        weight: usize,
        want: u32,
        shun: u64,
    ) -> Option<Masks> {
        let (first, second) = self.words.on(qubits);
        if weight == 1 {
            return single(first, second, want, shun);
        }
        for right in weight - 1..qubits {
            for place in 3 * right..3 * right + 3 {
                let want = want ^ first[place];
                if weight > 2 || usize::from(places[slot(want)]) < 3 * right {
                    let shun = shun ^ second[place];
                    if let Some(rest) = self.walk(places, right, weight - 1, want, shun) {
                        return Some(placed(qubits, place, rest));
                    }
                }
            }
        }
        None
    }
}
