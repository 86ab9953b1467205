//! The text of a case about decoding: lines with questions, an empty line, and the text of a sheet.
//!
//! A question is a key, `=` and a value. The value of `p` and of `e` is a Pauli: a digit, a sign and up to 32 letters.
//! Its phase is that of the signed row, and the digit times 2^28 + 1 more. The value of `b` and of `s` is the
//! characters of a syndrome. `p` and `b` are answered with all that the calls do, `e` and `s` in one line.

use crate::record::Pauli;
use crate::sheet::{self, Row};

const PHASE_STEP: u32 = (1 << 28) + 1;

#[derive(Clone, Copy, PartialEq, Eq, Debug)]
pub enum Question<'a> {
    /// `p`: the Pauli's syndrome.
    Syndrome(Pauli),
    /// `b`: the characters as bits, and the correction for them.
    Bits(&'a [u8]),
    /// `e`: the syndrome and the correction of an error.
    Error(Pauli),
    /// `s`: the correction for a syndrome.
    Correction(&'a [u8]),
}

/// The questions, and the text of the sheet.
pub fn read(text: &[u8]) -> (Vec<Question<'_>>, &[u8]) {
    let mut questions = Vec::new();
    let mut rest = text;
    loop {
        let end = rest.iter().position(|&byte| byte == b'\n');
        let (line, behind) = rest.split_at(end.expect("an empty line"));
        rest = &behind[1..];
        if line.is_empty() {
            return (questions, rest);
        }
        questions.push(question(line).expect("a question"));
    }
}

fn question(line: &[u8]) -> Option<Question<'_>> {
    let (key, value) = line.split_first()?;
    let value = value.strip_prefix(b"=")?;
    Some(match key {
        b'p' => Question::Syndrome(pauli(value)?),
        b'b' => Question::Bits(value),
        b'e' => Question::Error(pauli(value)?),
        b's' => Question::Correction(value),
        _ => return None,
    })
}

fn pauli(value: &[u8]) -> Option<Pauli> {
    let (digit, row) = value.split_first()?;
    let steps = digit.checked_sub(b'0').filter(|&steps| steps < 10)?;
    let width = row.len().checked_sub(1).filter(|&width| width <= 32)?;
    let mut pauli = Pauli::of(&sheet::row(row, width)?);
    pauli.p += u32::from(steps) * PHASE_STEP;
    Some(pauli)
}

/// A line with a Pauli, for the key `p` or `e`.
pub fn of_pauli(key: char, digit: usize, row: &Row) -> Vec<u8> {
    [format!("{key}={digit}").as_bytes(), &row.text()].concat()
}

/// A line with characters, for the key `b` or `s`.
pub fn of_characters(key: char, characters: &[u8]) -> Vec<u8> {
    [format!("{key}=").as_bytes(), characters].concat()
}

pub fn text(questions: &[Vec<u8>], sheet: &[u8]) -> Vec<u8> {
    let lines = questions.iter().map(|line| [line, &b"\n"[..]].concat());
    let mut text: Vec<u8> = lines.flatten().collect();
    text.push(b'\n');
    text.extend(sheet);
    text
}

#[cfg(test)]
mod tests {
    use super::*;
    use crate::samples::row;

    #[test]
    fn questions_are_read_as_they_were_written() {
        let all = row(&("-".to_string() + &"XYZI".repeat(8)));
        let lines = [
            of_pauli('p', 9, &all),
            of_characters('b', b"00 2"),
            of_pauli('e', 0, &row("+Y")),
            of_characters('s', b""),
        ];
        let text = text(&lines, b"n=5\n");
        assert!(text.ends_with(b"\nb=00 2\ne=0+Y\ns=\n\nn=5\n"));
        let (a, b) = (0x3333_3333, 0x6666_6666);
        let p = 0x9000_0009 + 2;
        let questions = vec![
            Question::Syndrome(Pauli { p, a, b }),
            Question::Bits(b"00 2"),
            Question::Error(Pauli { p: 1, a: 1, b: 1 }),
            Question::Correction(b""),
        ];
        assert_eq!(read(&text), (questions, &b"n=5\n"[..]));
        assert_eq!(read(b"\n"), (Vec::new(), &b""[..]));
    }
}
