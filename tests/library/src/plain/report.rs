//! The report.

use super::decoder::{correction, read_syndrome, walk};
use super::rows::ReducedRows;
use super::walk::Walk;
use super::{checks, letters, put, put_canonical, refusal, refused, sheet};
use reinoften::{Code, Refusal, RefusedSheet};
use std::io::Write;

/// Writes the report of a sheet and its syndromes, and answers how many bytes that has.
pub fn report<W: Walk>(input: &[u8], out: &mut [u8]) -> Result<usize, Refusal> {
    let text = account::<W>(input);
    put(&text.unwrap_or_else(|sheet| of_refused(&sheet)), out)
}

fn account<W: Walk>(input: &[u8]) -> Result<Vec<u8>, RefusedSheet> {
    let read = sheet::read_lines(input).map_err(refused)?;
    let code = &read.code;
    let rows = checks::check::<W>(code, read.claim_line)?;
    let syndromes = syndromes(code.r, read.behind, read.claim_line);
    let syndromes = syndromes.map_err(refused)?;
    let mut text = of_code(code, &rows, syndromes.len());
    let walk = walk::<W>(code);
    for syndrome in syndromes {
        match correction(&walk, syndrome) {
            Some((a, b)) => {
                text.extend(b"c=");
                text.extend(letters(code.n, a, b));
                text.push(b'\n');
            }
            None => text.extend(b"c=none\n"),
        }
    }
    Ok(text)
}

/// Check 16.
fn syndromes(r: usize, behind: &[u8], claim_line: usize) -> Result<Vec<u32>, Refusal> {
    let read = |(at, line): (usize, &[u8])| {
        let characters = { line.strip_prefix(b"s=") }.and_then(|line| line.strip_suffix(b"\n"));
        let syndrome = characters.and_then(|characters| read_syndrome(r, characters));
        syndrome.ok_or(refusal(16, claim_line + 1 + at))
    };
    let lines = behind.chunks(r + 3).enumerate();
    lines.map(read).collect()
}

/// The lines before the corrections, with room for so many of these.
fn of_code(code: &Code, rows: &ReducedRows, corrections: usize) -> Vec<u8> {
    let Code { n, r, d, .. } = *code;
    let (k, t) = (n - r, (d - 1) / 2);
    let room = 20 + r * (n + 4) + corrections * (n + 3).max(7);
    let mut text = Vec::with_capacity(room);
    let written = write!(text, "n={n}\nk={k}\nd={d}\nt={t}\n");
    written.expect("a vector grows");
    put_canonical(&mut text, n, rows);
    text
}

fn of_refused(sheet: &RefusedSheet) -> Vec<u8> {
    let Refusal { number, line, .. } = sheet.refusal;
    let mut text = format!("r={number}\nat={line}\n").into_bytes();
    if let Some(errors) = sheet.errors {
        for (key, error) in [(b"e=", errors.e), (b"f=", errors.f)] {
            text.extend(key);
            text.extend(letters(errors.n, error.a, error.b));
            text.push(b'\n');
        }
    }
    text
}
