//! The cases that the test program is given.
//!
//! A case is a letter (its kind), two digits (the number of a change), a space, five digits (the count of bytes of
//! the text), a line feed, and the text.

const HEADER: usize = 10;

/// The longest text that the test program takes.
pub const LONGEST_TEXT: usize = 65535;

/// Products of rows; a sheet that is read and written; single lines of a sheet; the group of a sheet's generators; the
/// admission of a sheet; the checks of a record; syndromes and corrections of a record; the corrections of errors on an
/// admitted code; the report on an input. Of the two before the last the text has questions before the sheet.
#[derive(Clone, Copy, PartialEq, Eq, Hash, Debug)]
pub enum Kind {
    Products,
    Sheet,
    Lines,
    Group,
    Admission,
    Checks,
    Decodings,
    Corrections,
    Report,
}

impl Kind {
    const ALL: [Kind; 9] = [
        Kind::Products,
        Kind::Sheet,
        Kind::Lines,
        Kind::Group,
        Kind::Admission,
        Kind::Checks,
        Kind::Decodings,
        Kind::Corrections,
        Kind::Report,
    ];

    fn letter(self) -> char {
        match self {
            Kind::Products => 'p',
            Kind::Sheet => 's',
            Kind::Lines => 'l',
            Kind::Group => 'g',
            Kind::Admission => 'a',
            Kind::Checks => 'c',
            Kind::Decodings => 'd',
            Kind::Corrections => 'e',
            Kind::Report => 'r',
        }
    }
}

#[derive(Clone, PartialEq, Eq, Hash)]
pub struct Case {
    pub kind: Kind,
    pub change: usize,
    pub text: Vec<u8>,
}

impl Case {
    /// With no change.
    pub fn of(kind: Kind, text: impl Into<Vec<u8>>) -> Case {
        let text = text.into();
        Case {
            kind,
            change: 0,
            text,
        }
    }

    pub fn changed(&self, change: usize) -> Case {
        let text = self.text.clone();
        Case {
            change,
            text,
            ..*self
        }
    }

    pub fn bytes(&self) -> Vec<u8> {
        let len = self.text.len();
        assert!(len <= LONGEST_TEXT);
        let header = format!("{}{:02} {len:05}\n", self.kind.letter(), self.change);
        [header.as_bytes(), &self.text].concat()
    }
}

pub fn read(mut bytes: &[u8]) -> Vec<Case> {
    let mut cases = Vec::new();
    while !bytes.is_empty() {
        let (header, rest) = bytes.split_at(HEADER);
        let (kind, change, len) = numbers(header).expect("the header of a case");
        let (text, rest) = rest.split_at(len);
        cases.push(Case::of(kind, text).changed(change));
        bytes = rest;
    }
    cases
}

fn numbers(header: &[u8]) -> Option<(Kind, usize, usize)> {
    let header = std::str::from_utf8(header).ok()?;
    let kind = Kind::ALL
        .into_iter()
        .find(|kind| header.starts_with(kind.letter()))?;
    let (change, len) = header[1..].strip_suffix('\n')?.split_once(' ')?;
    Some((kind, change.parse().ok()?, len.parse().ok()?))
}

#[cfg(test)]
mod tests {
    use super::*;

    #[test]
    fn cases_are_read_as_they_were_written() {
        let cases = Kind::ALL.map(|kind| Case::of(kind, *b"n=5\n").changed(19));
        assert_eq!(cases[1].bytes(), b"s19 00004\nn=5\n");
        let bytes: Vec<u8> = cases.iter().flat_map(Case::bytes).collect();
        assert!(read(&bytes) == cases);
    }
}
