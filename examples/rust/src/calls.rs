//! The calls as `include/reinoften.h` declares them, with its names. A test holds the two to each other.

pub const DONE: u32 = 0;

pub const NONE: u32 = 255;

/// Bytes that always hold a syndrome.
pub const SYNDROME_ROOM: usize = 23;

/// Bytes that always hold the letters of a correction.
pub const LETTERS_ROOM: usize = 24;

/// Bytes that always hold the lines of canonical generators.
pub const CANONICAL_ROOM: usize = 644;

/// Bytes that always hold a sheet.
pub const SHEET_ROOM: usize = 1352;

/// Bytes that always hold a report.
pub const REPORT_ROOM: usize = 32768;

/// The rows of each family that a record has places for.
pub const ROW_ROOM: usize = 32;

#[repr(C)]
#[derive(Clone, Copy, PartialEq, Eq, Debug)]
pub struct Answer {
    pub number: u32,
    pub family: u32,
    pub line: usize,
    pub count: usize,
}

/// i^p D(a, b): the phase is read modulo 4, and qubit j is bit j - 1 of both masks.
#[repr(C)]
#[derive(Clone, Copy, PartialEq, Eq, Debug)]
pub struct Pauli {
    pub p: u32,
    pub a: u32,
    pub b: u32,
}

/// The record of a code. Unused rows are +I.
#[repr(C)]
#[derive(Clone, Copy, PartialEq, Eq, Debug)]
pub struct Code {
    pub n: usize,
    pub r: usize,
    pub d: usize,
    pub g: [Pauli; ROW_ROOM],
    pub x: [Pauli; ROW_ROOM],
    pub z: [Pauli; ROW_ROOM],
    pub w: Pauli,
}

/// Two errors on n qubits that refute a claimed distance.
#[repr(C)]
#[derive(Clone, Copy, PartialEq, Eq, Debug)]
pub struct ErrorPair {
    pub n: usize,
    pub e: Pauli,
    pub f: Pauli,
}

#[repr(C)]
#[derive(Clone, Copy, PartialEq, Eq, Debug)]
pub struct Reading {
    pub answer: Answer,
    pub errors: ErrorPair,
    pub code: Code,
}

#[repr(C)]
#[derive(Clone, Copy, PartialEq, Eq, Debug)]
pub struct Correction {
    pub answer: Answer,
    pub correction: Pauli,
}

extern "C" {
    pub fn reinoften_read_sheet(sheet: *const u8, sheet_length: usize) -> Reading;

    pub fn reinoften_write_sheet(code: Code, out: *mut u8, out_length: usize) -> Answer;

    pub fn reinoften_canonical(code: Code, out: *mut u8, out_length: usize) -> Answer;

    pub fn reinoften_syndrome(code: Code, error: Pauli, out: *mut u8, out_length: usize) -> Answer;

    pub fn reinoften_decode(
        code: Code,
        syndrome: *const u8,
        syndrome_length: usize,
        out: *mut u8,
        out_length: usize,
    ) -> Answer;

    pub fn reinoften_correct(code: Code, syndrome: u32) -> Correction;

    pub fn reinoften_report(
        input: *const u8,
        input_length: usize,
        out: *mut u8,
        out_length: usize,
    ) -> Answer;
}
