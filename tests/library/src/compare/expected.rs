//! What the independent implementation has for a call, in the library's terms. Of a refusal the count is 0 here, a
//! family is with 6 to 10 alone, and two errors are with 14 alone: so these are compared as well.

use independent::admission::Fault;
use independent::decoding::{Decoded, Decoder};
use independent::group::canonical_text;
use independent::record::{put, Pauli, Record};
use independent::sheet::{Refusal, Row, Sheet};
use reinoften::calls::{Answer, Correction, Reading, DONE, NONE};
use reinoften::{Code, ErrorPair, RefusedSheet};

/// The count of bytes that are written, or `none`, or a refusal.
pub type Outcome = Result<Option<usize>, Refusal>;

/// The same as the wrapper has it.
pub type WrappedOutcome = Result<Option<usize>, reinoften::Refusal>;

pub fn answer(outcome: &Outcome) -> Answer {
    let (number, count) = match outcome {
        Ok(Some(count)) => (DONE, *count),
        Ok(None) => (NONE, 0),
        Err(refusal) => (refusal.number, 0),
    };
    let refusal = outcome.as_ref().err();
    let family = refusal.and_then(|refusal| refusal.family);
    Answer {
        number,
        family: family.map_or(0, u32::from),
        line: refusal.map_or(0, |refusal| refusal.line),
        count,
    }
}

pub fn wrapped<T>(outcome: Result<T, Refusal>) -> Result<T, reinoften::Refusal> {
    outcome.map_err(wrapped_refusal)
}

fn wrapped_refusal(refusal: Refusal) -> reinoften::Refusal {
    reinoften::Refusal {
        number: refusal.number,
        line: refusal.line,
        family: refusal.family.map_or(0, |key| key as u8),
    }
}

pub fn reading(admitted: &Result<Sheet, Fault>) -> Reading {
    let fault = admitted.as_ref().err();
    let outcome = fault.map_or(Ok(Some(0)), |fault| Err(fault.refusal));
    let (e, f) = (PLUS_I, PLUS_I);
    Reading {
        answer: answer(&outcome),
        errors: fault.and_then(errors).unwrap_or(ErrorPair { n: 0, e, f }),
        code: code(&admitted.as_ref().map_or(Record::EMPTY, Record::of)),
    }
}

pub fn wrapped_reading(admitted: &Result<Sheet, Fault>) -> Result<Code, RefusedSheet> {
    let sheet = admitted.as_ref().map_err(|fault| RefusedSheet {
        refusal: wrapped_refusal(fault.refusal),
        errors: errors(fault),
    })?;
    Ok(code(&Record::of(sheet)))
}

pub fn correction(found: &Result<Option<Pauli>, Refusal>) -> Correction {
    let outcome = found.map(|pauli| pauli.map(|_| 0));
    Correction {
        answer: answer(&outcome),
        correction: found.ok().flatten().map_or(PLUS_I, pauli),
    }
}

const PLUS_I: reinoften::Pauli = reinoften::Pauli { p: 0, a: 0, b: 0 };

/// The two errors of a fault, where it has them.
fn errors(fault: &Fault) -> Option<ErrorPair> {
    let letters = fault.errors.clone()?;
    let n = letters[0].len();
    let [e, f] = letters.map(|letters| {
        let minus = false;
        pauli(Pauli::of(&Row { minus, letters }))
    });
    Some(ErrorPair { n, e, f })
}

pub fn pauli(Pauli { p, a, b }: Pauli) -> reinoften::Pauli {
    reinoften::Pauli { p, a, b }
}

fn code(record: &Record) -> Code {
    let Record { n, r, d, .. } = *record;
    Code {
        n,
        r,
        d,
        g: record.g.map(pauli),
        x: record.x.map(pauli),
        z: record.z.map(pauli),
        w: pauli(record.w),
    }
}

/// A record, and what is written of it.
pub struct Subject {
    pub record: Record,
    pub code: Code,
    pub sheet: Result<Vec<u8>, Refusal>,
    pub canonical: Result<Vec<u8>, Refusal>,
    decoder: Decoder,
}

impl Subject {
    pub fn of(record: Record) -> Subject {
        let sheet = record.within_limits();
        Subject {
            code: code(&record),
            canonical: sheet.as_ref().map_err(|r| *r).and_then(canonical_text),
            sheet: sheet.map(|sheet| sheet.text()),
            decoder: Decoder::of(&record),
            record,
        }
    }

    /// Whether it is within its limits.
    pub fn is_within(&self) -> bool {
        self.sheet.is_ok()
    }

    pub fn syndrome(&self, error: Pauli, out: &mut [u8]) -> Outcome {
        self.decoder.write_syndrome(error, out)?;
        Ok(Some(self.record.r))
    }

    pub fn decode(&self, characters: &[u8], out: &mut [u8]) -> Outcome {
        let decoded = self.decoder.decode(characters, out)?;
        Ok((decoded == Decoded::Correction).then_some(self.record.n))
    }

    /// 15, then 16, then the correction.
    pub fn correct(&self, mask: u32) -> Result<Option<Pauli>, Refusal> {
        self.record.within_limits()?;
        match mask >> self.record.r {
            0 => Ok(self.decoder.correct(mask)),
            _ => Err(Refusal::new(16, 0)),
        }
    }
}

/// A text that is written where there is room for it.
pub fn written(text: &Result<Vec<u8>, Refusal>, out: &mut [u8]) -> Outcome {
    match text {
        Ok(text) => put(text, out).map(Some),
        Err(refusal) => Err(*refusal),
    }
}
