//! The calls of the library once more, as one would write them in Rust for speed: with masks, and without `unsafe`. The
//! benchmark has them beside the library. They answer as it does, refusals included. They take a record by value and by
//! C's convention, as the interface has it; what they answer stays in Rust's types.
//!
//! The search has two forms, which a caller names: `Scan` and `Table`.

mod checks;
mod decoder;
mod limits;
mod report;
mod rows;
mod sheet;
mod table;
mod walk;
mod words;

use limits::check_limits;
use reinoften::{Code, Refusal, RefusedSheet};
use rows::ReducedRows;

pub use decoder::{correct, decode};
pub use report::report;
pub use table::Table;
pub use walk::{Scan, Walk};

/// Reads a sheet and checks it.
pub fn read_sheet<W: Walk>(bytes: &[u8]) -> Result<Code, RefusedSheet> {
    let read = sheet::read_alone(bytes).map_err(refused)?;
    checks::check::<W>(&read.code, read.claim_line)?;
    Ok(read.code)
}

/// Writes the canonical generators of a record, and answers how many bytes they have.
#[inline(never)]
#[allow(improper_ctypes_definitions)]
pub extern "C" fn canonical(code: Code, out: &mut [u8]) -> Result<usize, Refusal> {
    check_limits(&code)?;
    let rows = checks::check_generators(&code)?;
    let mut text = Vec::with_capacity(code.r * (code.n + 4));
    put_canonical(&mut text, code.n, &rows);
    put(&text, out)
}

fn put_canonical(text: &mut Vec<u8>, n: usize, rows: &ReducedRows) {
    for (minus, row) in rows.signed() {
        text.extend(if minus { b"h=-" } else { b"h=+" });
        text.extend(letters(n, row.a, row.b));
        text.push(b'\n');
    }
}

/// The letters of n qubits.
fn letters(n: usize, a: u32, b: u32) -> impl Iterator<Item = u8> {
    (0..n).map(move |qubit| b"IXZY"[(a >> qubit & 1 | (b >> qubit & 1) << 1) as usize])
}

/// Check 17, and the text at the front.
fn put(text: &[u8], out: &mut [u8]) -> Result<usize, Refusal> {
    let room = out.get_mut(..text.len());
    room.ok_or(refusal(17, 0))?.copy_from_slice(text);
    Ok(text.len())
}

/// A refusal without a family.
fn refusal(number: u32, line: usize) -> Refusal {
    let family = 0;
    Refusal {
        number,
        line,
        family,
    }
}

/// A sheet with a fault that has no errors.
fn refused(refusal: Refusal) -> RefusedSheet {
    let errors = None;
    RefusedSheet { refusal, errors }
}

#[cfg(test)]
mod tests;
