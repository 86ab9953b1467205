//! What the test program has to write about syndromes and corrections.

use super::{value, written_thrice};
use crate::admission;
use crate::decoding::{mask, read_syndrome, Decoded, Decoder};
use crate::questions::{self, Question};
use crate::record::{Pauli, Record};
use crate::sheet::{self, Refusal};

/// The changed record of a sheet, and n and r as they were before: buffers have lengths about these.
struct Asked {
    n: usize,
    r: usize,
    changed: Record,
    decoder: Decoder,
}

/// The answers to the questions about the changed record of a sheet.
pub fn decodings(text: &[u8], change: usize) -> Vec<u8> {
    let (questions, sheet) = questions::read(text);
    let record = sheet::read_alone(sheet).map_or(Record::EMPTY, |sheet| Record::of(&sheet));
    let asked = Asked::of(record, change);
    let answers = questions.into_iter().map(|question| asked.answer(question));
    answers.flatten().collect()
}

/// Whether the sheet is admitted, the cycle of the first error, and the answers to the questions about the record. That
/// of a refused sheet is empty.
pub fn corrections(text: &[u8]) -> Vec<u8> {
    let (questions, sheet) = questions::read(text);
    let sheet = admission::admit(sheet);
    let admitted = sheet.as_ref().map(|_| "admitted");
    let verdict = value(admitted.map_err(|fault| &fault.refusal));
    let verdict = format!("corrections {verdict}\n").into_bytes();
    let asked = Asked::of(sheet.map_or(Record::EMPTY, |sheet| Record::of(&sheet)), 0);
    let Some(Question::Error(first)) = questions.first() else {
        panic!("a case that begins with an error");
    };
    let cycle = asked.cycle(*first);
    let answers = questions.into_iter().map(|question| asked.answer(question));
    [verdict, cycle]
        .into_iter()
        .chain(answers)
        .flatten()
        .collect()
}

impl Asked {
    fn of(record: Record, change: usize) -> Asked {
        let (n, r) = (record.n, record.r);
        let mut changed = record;
        changed.change(change);
        let decoder = Decoder::of(&changed);
        Asked {
            n,
            r,
            changed,
            decoder,
        }
    }

    fn answer(&self, question: Question) -> Vec<u8> {
        match question {
            Question::Syndrome(pauli) => self.syndrome(pauli),
            Question::Bits(characters) => self.bits(characters),
            Question::Error(pauli) => self.error(pauli),
            Question::Correction(characters) => self.correction(characters),
        }
    }

    fn syndrome(&self, pauli: Pauli) -> Vec<u8> {
        let write = |out: &mut [u8]| self.decoder.write_syndrome(pauli, out);
        written_thrice(self.r, |out| write(out).map(|()| "given"))
    }

    /// The mask that the characters stand for, and the same where they have to be r; the correction for that mask by
    /// value; and what the decode call does.
    fn bits(&self, characters: &[u8]) -> Vec<u8> {
        let read = |r: usize| read_syndrome(r, characters).and_then(|bits| mask(&bits));
        let masks = [characters.len(), self.changed.r].map(|r| match read(r) {
            Some(mask) => format!(" {mask}"),
            None => " malformed".to_string(),
        });
        let mut answer = format!("mask{}\n", masks.concat());
        if let Some(mask) = read(characters.len()) {
            answer += &match self.decoder.correct(mask) {
                Some(Pauli { p, a, b }) => format!("by value {p} {a} {b}\n"),
                None => "by value none\n".to_string(),
            };
        }
        [answer.into_bytes(), self.decode(characters)].concat()
    }

    /// What the decode call answers to the syndrome that the syndrome call wrote.
    fn cycle(&self, error: Pauli) -> Vec<u8> {
        let mut characters = vec![b'.'; self.r];
        self.decoder.write_syndrome(error, &mut characters).ok();
        self.decode(&characters)
    }

    fn decode(&self, characters: &[u8]) -> Vec<u8> {
        written_thrice(self.n, |out| {
            let decoded = self.decoder.decode(characters, out)?;
            Ok::<_, Refusal>(match decoded {
                Decoded::Correction => "correction",
                Decoded::None => "none",
            })
        })
    }

    /// The characters of the syndrome, and the answer to them.
    fn error(&self, pauli: Pauli) -> Vec<u8> {
        let mut characters = vec![b'.'; self.r];
        let shown = match self.decoder.write_syndrome(pauli, &mut characters) {
            Ok(()) => characters.clone(),
            Err(refusal) => shown_refusal(&refusal),
        };
        [shown, b" ".to_vec(), self.correction(&characters)].concat()
    }

    fn correction(&self, characters: &[u8]) -> Vec<u8> {
        let mut letters = vec![b'.'; self.n];
        let shown = match self.decoder.decode(characters, &mut letters) {
            Ok(Decoded::Correction) => letters,
            Ok(Decoded::None) => b"none".to_vec(),
            Err(refusal) => shown_refusal(&refusal),
        };
        [shown, b"\n".to_vec()].concat()
    }
}

fn shown_refusal(refusal: &Refusal) -> Vec<u8> {
    format!(" {}", value(Err::<&str, _>(refusal))).into_bytes()
}
