//! The calls of the library, safe to use from Rust. `include/reinoften.h` says what each answers; here an answer is a
//! `Result`, and `none` is an `Option`.
//!
//! Why the `unsafe` blocks are sound: a slice is a pointer that is good for its length while the call lasts, an empty
//! one too. A slice that is written overlaps no other, since it is borrowed alone. Records and Paulis are numbers, so
//! any of their values may be handed over, and any that come back are good.

#[doc(hidden)]
pub mod calls;

use calls::{Answer, DONE, NONE};
pub use calls::{Code, ErrorPair, Pauli};
pub use calls::{CANONICAL_ROOM, LETTERS_ROOM, REPORT_ROOM, ROW_ROOM, SHEET_ROOM, SYNDROME_ROOM};
use std::error::Error;
use std::fmt;

/// A refusal: its number, the line that it names (0 for none) and the family of its row (0 for none, else the byte
/// `g`, `x` or `z`).
#[derive(Clone, Copy, PartialEq, Eq, Debug)]
pub struct Refusal {
    pub number: u32,
    pub line: usize,
    pub family: u8,
}

impl fmt::Display for Refusal {
    fn fmt(&self, f: &mut fmt::Formatter) -> fmt::Result {
        write!(f, "refused with {} at line {}", self.number, self.line)
    }
}

impl Error for Refusal {}

/// A refused sheet, and for 14 the two errors that refute its distance.
#[derive(Clone, Copy, PartialEq, Eq, Debug)]
pub struct RefusedSheet {
    pub refusal: Refusal,
    pub errors: Option<ErrorPair>,
}

impl fmt::Display for RefusedSheet {
    fn fmt(&self, f: &mut fmt::Formatter) -> fmt::Result {
        self.refusal.fmt(f)
    }
}

impl Error for RefusedSheet {}

impl Answer {
    /// The count of bytes written, or none, or the refusal.
    fn outcome(self) -> Result<Option<usize>, Refusal> {
        match self.number {
            DONE => Ok(Some(self.count)),
            NONE => Ok(None),
            number => Err(Refusal {
                number,
                line: self.line,
                family: self.family as u8,
            }),
        }
    }

    /// Of a call that never answers `none`.
    fn count(self) -> Result<usize, Refusal> {
        let count = self.outcome()?;
        Ok(count.expect("only decoding answers none"))
    }
}

/// Reads a sheet and checks it: its record, or why it is refused.
pub fn read_sheet(sheet: &[u8]) -> Result<Code, RefusedSheet> {
    let reading = unsafe { calls::reinoften_read_sheet(sheet.as_ptr(), sheet.len()) };
    let errors = (reading.errors.n > 0).then_some(reading.errors);
    match reading.answer.count() {
        Ok(_) => Ok(reading.code),
        Err(refusal) => Err(RefusedSheet { refusal, errors }),
    }
}

impl Code {
    /// Writes its sheet, at most `SHEET_ROOM` bytes, and answers how many.
    pub fn write_sheet(&self, out: &mut [u8]) -> Result<usize, Refusal> {
        unsafe { calls::reinoften_write_sheet(*self, out.as_mut_ptr(), out.len()) }.count()
    }

    /// Writes the lines of its canonical generators, at most `CANONICAL_ROOM` bytes, and answers how many.
    pub fn canonical(&self, out: &mut [u8]) -> Result<usize, Refusal> {
        unsafe { calls::reinoften_canonical(*self, out.as_mut_ptr(), out.len()) }.count()
    }

    /// Writes the syndrome of a Pauli, at most `SYNDROME_ROOM` characters, and answers how many.
    pub fn syndrome(&self, error: Pauli, out: &mut [u8]) -> Result<usize, Refusal> {
        unsafe { calls::reinoften_syndrome(*self, error, out.as_mut_ptr(), out.len()) }.count()
    }

    /// Writes the letters of the correction for a syndrome, at most `LETTERS_ROOM`, and answers how many; or none,
    /// where there is no correction.
    pub fn decode(&self, syndrome: &[u8], out: &mut [u8]) -> Result<Option<usize>, Refusal> {
        let (start, len) = (syndrome.as_ptr(), syndrome.len());
        unsafe { calls::reinoften_decode(*self, start, len, out.as_mut_ptr(), out.len()) }.outcome()
    }

    /// The correction for a syndrome, whose first generator's bit is the lowest; or none.
    pub fn correct(&self, syndrome: u32) -> Result<Option<Pauli>, Refusal> {
        let found = unsafe { calls::reinoften_correct(*self, syndrome) };
        Ok(found.answer.outcome()?.map(|_| found.correction))
    }
}

/// Writes the report of a sheet and its syndromes, at most `REPORT_ROOM` bytes, and answers how many.
pub fn report(input: &[u8], out: &mut [u8]) -> Result<usize, Refusal> {
    let (start, len) = (input.as_ptr(), input.len());
    unsafe { calls::reinoften_report(start, len, out.as_mut_ptr(), out.len()) }.count()
}
