//! The words of letters, by which the walk goes through strings.

use super::rows::ReducedRows;
use reinoften::Code;

/// The words of X, Y and Z at the qubit with m qubits to its right stand at the places 3m, 3m + 1 and 3m + 2.
pub struct Words {
    pub qubits: usize,
    pub first: [u32; 72],
    pub second: [u64; 72],
}

impl Words {
    /// Those of the last qubits.
    pub fn on(&self, qubits: usize) -> (&[u32], &[u64]) {
        (&self.first[..3 * qubits], &self.second[..3 * qubits])
    }

    /// First words: the syndromes. The second words are 0.
    pub fn of_syndromes(code: &Code) -> Words {
        let generators = &code.g[..code.r];
        let mut first = [0; 72];
        for (letters, qubit) in first.chunks_exact_mut(3).zip((0..code.n).rev()) {
            // the word of Z in the low half, that of X in the high half
            let mut both = 0;
            for row in generators.iter().rev() {
                let masks = u64::from(row.a) | u64::from(row.b) << 32;
                both = (2 * both) | (masks >> qubit & 0x1_0000_0001);
            }
            let (x, z) = ((both >> 32) as u32, both as u32);
            letters.copy_from_slice(&[x, x ^ z, z]);
        }
        Words {
            qubits: code.n,
            first,
            second: [0; 72],
        }
    }

    /// The same, with what the reduced rows leave of each letter for second words.
    pub fn of_logical_errors(code: &Code, rows: &ReducedRows) -> Words {
        let mut words = Words::of_syndromes(code);
        let left = rows.left_of_columns();
        for (letters, qubit) in { words.second.chunks_exact_mut(3) }.zip((0..code.n).rev()) {
            let (x, z) = (left[qubit], left[32 + qubit]);
            letters.copy_from_slice(&[x, x ^ z, z]);
        }
        words
    }
}
