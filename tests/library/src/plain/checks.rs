//! The checks 6 to 14.

use super::rows::{commute, ReducedRows};
use super::walk::{Masks, Walk};
use super::words::Words;
use super::{refusal, refused};
use reinoften::{Code, ErrorPair, Pauli, Refusal, RefusedSheet};

/// The reduced rows of a code that passes.
pub fn check<W: Walk>(code: &Code, claim_line: usize) -> Result<ReducedRows, RefusedSheet> {
    let rows = check_but_distance(code, claim_line).map_err(refused)?;
    check_distance::<W>(code, &rows, claim_line)?;
    Ok(rows)
}

fn check_but_distance(code: &Code, claim_line: usize) -> Result<ReducedRows, Refusal> {
    let rows = check_generators(code)?;
    check_logicals(code)?;
    check_claim(code, &rows, claim_line)?;
    Ok(rows)
}

/// 6 to 8.
pub fn check_generators(code: &Code) -> Result<ReducedRows, Refusal> {
    let generators = &code.g[..code.r];
    let of_generator = |number, place| Refusal {
        family: b'g',
        ..refusal(number, 3 + place)
    };
    for (place, row) in generators.iter().enumerate() {
        if !generators[..place].iter().all(|above| commute(above, row)) {
            return Err(of_generator(6, place));
        }
    }
    let mut rows = ReducedRows::with_room(code.r);
    for (place, row) in generators.iter().enumerate() {
        let added = rows.add(row);
        added.map_err(|number| of_generator(number, place))?;
    }
    Ok(rows)
}

/// 9 and 10.
fn check_logicals(code: &Code) -> Result<(), Refusal> {
    let k = code.n - code.r;
    let mut logicals = [Pauli { p: 0, a: 0, b: 0 }; 48];
    logicals[..k].copy_from_slice(&code.x[..k]);
    logicals[k..2 * k].copy_from_slice(&code.z[..k]);
    let logicals = &logicals[..2 * k];
    let of_logical = |number, place| Refusal {
        family: if place < k { b'x' } else { b'z' },
        ..refusal(number, 3 + code.r + place)
    };
    if let Some(place) = logicals.iter().position(|row| detected(code, row)) {
        return Err(of_logical(9, place));
    }
    for (place, row) in logicals.iter().enumerate() {
        let mut above = logicals[..place].iter().enumerate();
        if !above.all(|(other, logical)| commute(logical, row) != (other + k == place)) {
            return Err(of_logical(10, place));
        }
    }
    Ok(())
}

fn detected(code: &Code, pauli: &Pauli) -> bool {
    !code.g[..code.r].iter().all(|row| commute(row, pauli))
}

/// 11 to 13.
fn check_claim(code: &Code, rows: &ReducedRows, line: usize) -> Result<(), Refusal> {
    let weight = (code.w.a | code.w.b).count_ones() as usize;
    if weight != code.d {
        return Err(refusal(11, line));
    }
    if detected(code, &code.w) {
        return Err(refusal(12, line));
    }
    if rows.contains(&code.w) {
        return Err(refusal(13, line));
    }
    Ok(())
}

/// 14.
fn check_distance<W: Walk>(
    code: &Code,
    rows: &ReducedRows,
    line: usize,
) -> Result<(), RefusedSheet> {
    let words = Words::of_logical_errors(code, rows);
    match W::of(words, code.d - 1).earliest(0, 0) {
        None => Ok(()),
        Some(masks) => Err(RefusedSheet {
            refusal: refusal(14, line),
            errors: Some(halves(code.n, masks)),
        }),
    }
}

/// The first half of the letters other than I, rounded up, and the others.
fn halves(n: usize, (a, b): Masks) -> ErrorPair {
    let struck = a | b;
    let mut others = struck;
    for _ in 0..struck.count_ones().div_ceil(2) {
        others &= others - 1;
    }
    let half = |qubits: u32| {
        let (a, b) = (a & qubits, b & qubits);
        let p = (a & b).count_ones() % 4;
        Pauli { p, a, b }
    };
    let (e, f) = (half(struck & !others), half(others));
    ErrorPair { n, e, f }
}
