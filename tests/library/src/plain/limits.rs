//! Check 15.

use super::refusal;
use super::sheet::PLUS_I;
use reinoften::{Code, Pauli, Refusal};

pub fn check_limits(code: &Code) -> Result<(), Refusal> {
    within_limits(code).then_some(()).ok_or(refusal(15, 0))
}

/// A used row that passes is put to +I in a copy, so that all rows can then be tested at once, as the library does. This
/// is faster than to go through those that are not used.
fn within_limits(code: &Code) -> bool {
    let Code { n, r, d, w, .. } = *code;
    if !(2..=24).contains(&n) || !(1..n).contains(&r) || !(1..=7).contains(&d) {
        return false;
    }
    let power = |row: &Pauli| row.p.wrapping_sub((row.a & row.b).count_ones()) % 4;
    let on_qubits = |row: &Pauli| (row.a | row.b) >> n == 0;
    let is_row = |row: &Pauli| on_qubits(row) && power(row) % 2 == 0;
    let mut families = [code.g, code.x, code.z];
    for (rows, used) in families.iter_mut().zip([r, n - r, n - r]) {
        for row in &mut rows[..used] {
            if !is_row(row) {
                return false;
            }
            *row = PLUS_I;
        }
    }
    are_unused(&families) && on_qubits(&w) && power(&w) == 0
}

/// Rows without a bit are +I. A phase of 4 is +I too.
fn are_unused(families: &[[Pauli; 32]; 3]) -> bool {
    let joined = families.iter().fold(0, |joined, rows| joined | bits(rows));
    let is_plus_i = |row: &Pauli| (row.p % 4, row.a, row.b) == (0, 0, 0);
    joined == 0 || families.iter().flatten().all(is_plus_i)
}

/// A loop of this many turns is compiled to join several words at once.
fn bits(rows: &[Pauli; 32]) -> u32 {
    rows.iter()
        .fold(0, |bits, row| bits | row.p | row.a | row.b)
}
