//! A cycle of error correction: a sheet is admitted, an error struck, its syndrome decoded, and the product of
//! correction and error has no syndrome left. `examples/cycle.c` is the same in C.
//!
//! The file is a sheet and nothing else. The admitted sheets in `samples` have `s=` lines behind them, which only a
//! report reads: here they are refused with 2.
use reinoften::{read_sheet, Code, Pauli, LETTERS_ROOM, SYNDROME_ROOM};
use std::env;
use std::fmt::Display;
use std::fs;
use std::process::ExitCode;

/// What a call answered, or what to say of it.
fn done<T>(call: &str, answer: Result<T, impl Display>) -> Result<T, String> {
    answer.map_err(|refusal| format!("{call}: {refusal}"))
}

/// The same of a call that may find no correction.
fn found<T>(call: &str, answer: Result<Option<T>, impl Display>) -> Result<T, String> {
    done(call, answer)?.ok_or_else(|| format!("{call}: there is no correction"))
}

fn syndrome_of(code: &Code, error: Pauli) -> Result<String, String> {
    let mut characters = [0; SYNDROME_ROOM];
    let count = done("syndrome", code.syndrome(error, &mut characters))?;
    Ok(String::from_utf8_lossy(&characters[..count]).into_owned())
}

/// The characters of a syndrome as a number, in which the first generator's bit is the lowest.
fn value_of(syndrome: &str) -> u32 {
    let bits = syndrome.bytes().map(|character| (character == b'1') as u32);
    bits.rev().fold(0, |value, bit| value << 1 | bit)
}

/// Whether no syndrome is left at the end.
fn cycle(path: &str) -> Result<bool, String> {
    let sheet = fs::read(path).map_err(|fault| format!("{path}: {fault}"))?;
    let code = done("read_sheet", read_sheet(&sheet))?;
    println!("admitted: n={} r={} d={}", code.n, code.r, code.d);

    // Y on qubit 2.
    let (a, b) = (1 << 1, 1 << 1);
    let syndrome = syndrome_of(&code, Pauli { p: 1, a, b })?;
    println!("Y on qubit 2 has the syndrome {syndrome}");

    let mut letters = [0; LETTERS_ROOM];
    let count = found("decode", code.decode(syndrome.as_bytes(), &mut letters))?;
    let correction = String::from_utf8_lossy(&letters[..count]);
    println!("correction: {correction}");

    let correction = found("correct", code.correct(value_of(&syndrome)))?;
    println!(
        "by value: X part {:#x}, Z part {:#x}",
        correction.a, correction.b
    );

    // The phase is left aside: no syndrome depends on it.
    let (a, b) = (correction.a ^ a, correction.b ^ b);
    let left = syndrome_of(&code, Pauli { p: 0, a, b })?;
    println!("correction times error has the syndrome {left}");
    Ok(value_of(&left) == 0)
}

fn main() -> ExitCode {
    let words: Vec<String> = env::args().collect();
    let [_, path] = words.as_slice() else {
        eprintln!("usage: cycle SHEET");
        return ExitCode::FAILURE;
    };
    match cycle(path) {
        Ok(true) => ExitCode::SUCCESS,
        Ok(false) => ExitCode::FAILURE,
        Err(fault) => {
            eprintln!("{fault}");
            ExitCode::FAILURE
        }
    }
}
