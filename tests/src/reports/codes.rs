//! Codes that are admitted, and lines to stand behind their sheets.

use super::Input;
use crate::codes::{any_code, string_of_weight, with_distance_at_most, with_qubits};
use crate::codes::{disguised, MOST_DISTANCE};
use crate::random::Random;
use crate::record::Record;
use crate::sheet::{line, Letter, Row, Sheet};
use crate::strings::string_count;
use crate::syndromes::{any_bits, off_form, syndrome};
use crate::{damage, published};
use std::sync::OnceLock;

/// The longest input that is not refused for its length.
pub const MOST_BYTES: usize = 4096;

/// n and r.
pub type Size = (usize, usize);

/// So many qubits at most has a published code in other clothes, since an admission takes long else.
const FEW_QUBITS: usize = 17;

/// So many strings are gone through for a distance, at most.
const MOST_STRINGS: u64 = 60_000;

/// Now and then so many.
const MORE_STRINGS: u64 = 1_000_000;

/// A size of few qubits, and now and then the given one.
pub fn smaller(random: &mut Random, (n, r): Size) -> Size {
    if random.below(8) == 0 {
        return (n, r);
    }
    let n = 2 + random.index(8);
    (n, 1 + random.index(n - 1))
}

/// A code that is admitted. All of its qubits are in a code that has any rows; or only some, so that its distance is
/// found in no time, and each of the others has a generator of its own.
pub fn admitted(random: &mut Random, (n, r): Size) -> Sheet {
    let strings = match random.below(16) {
        0 => MORE_STRINGS,
        _ => MOST_STRINGS,
    };
    let k = n - r;
    let mut coded = match random.below(4) {
        0 => n,
        _ => n.min(k + 3 + random.index(10)),
    };
    loop {
        let code = any_code(random, coded, coded - k);
        let most = longest_distance(n, coded, strings);
        if let Some(sheet) = with_distance_at_most(random, &code, most) {
            return match coded == n {
                true => sheet,
                false => disguised(random, &with_qubits(&sheet, n)),
            };
        }
        // one generator alone has logical errors of weight 1
        coded = (k + 1).max(coded - 1 - random.index(3));
    }
}

/// The longest distance for which so many strings are enough: to find it among the qubits in the code, and to check it
/// among all.
fn longest_distance(n: usize, coded: usize, strings: u64) -> usize {
    let is_cheap =
        |&d: &usize| string_count(coded, d) <= strings && string_count(n, d - 1) <= strings;
    { (1..=MOST_DISTANCE).rev() }.find(is_cheap).unwrap_or(1)
}

/// A published code in other clothes.
pub fn published_code(random: &mut Random) -> Sheet {
    static CODES: OnceLock<Vec<Sheet>> = OnceLock::new();
    let codes = CODES.get_or_init(|| {
        let codes = published::all().into_iter();
        codes.filter(|sheet| sheet.n <= FEW_QUBITS).collect()
    });
    let at = random.index(codes.len());
    disguised(random, &codes[at])
}

/// The sheet, and behind it the syndromes of errors that the code corrects.
pub fn with_errors(sheet: &Sheet, errors: Vec<Vec<Letter>>) -> Input {
    let record = Record::of(sheet);
    let mut bytes = sheet.text();
    bytes.extend(errors.iter().flat_map(|letters| of_error(&record, letters)));
    Input {
        errors,
        ..Input::from(bytes)
    }
}

/// So many errors that the code corrects, most as heavy as they may be.
pub fn light_errors(random: &mut Random, sheet: &Sheet, count: usize) -> Vec<Vec<Letter>> {
    let t = (sheet.d - 1) / 2;
    let error = |_| {
        let any = random.index(t + 1);
        let v = random.pick(&[t, t, any]);
        string_of_weight(random, sheet.n, v)
    };
    (0..count).map(error).collect()
}

fn of_error(record: &Record, letters: &[Letter]) -> Vec<u8> {
    let (minus, letters) = (false, letters.to_vec());
    line("s=", &syndrome(record, &Row { minus, letters }))
}

/// So many `s=` lines: of errors that may be a little too heavy, and of any bits.
pub fn asked(random: &mut Random, sheet: &Sheet, count: usize) -> Vec<u8> {
    let record = Record::of(sheet);
    let t = (sheet.d - 1) / 2;
    let mut lines = Vec::new();
    for _ in 0..count {
        lines.extend(match random.below(3) {
            0 => of_any_bits(random, record.r),
            _ => {
                let v = random.pick(&[0, t, t, t + 1]).min(sheet.n);
                of_error(&record, &string_of_weight(random, sheet.n, v))
            }
        });
    }
    lines
}

pub fn of_any_bits(random: &mut Random, r: usize) -> Vec<u8> {
    line("s=", &any_bits(random, r))
}

/// A line that is no `s=` line of r characters, or at least is changed in one place.
pub fn off_form_line(random: &mut Random, r: usize) -> Vec<u8> {
    const KEYS: [&str; 8] = ["c=", "S=", "s:", "s", "", " s=", "s= ", "w="];
    const WHOLE: [&[u8]; 6] = [b"\n", b"\r\n", b" \n", b"s\n", b"s=\n", b"\0\n"];
    let right = of_any_bits(random, r);
    let at = random.index(right.len());
    match random.below(7) {
        0 | 1 => {
            let characters = off_form(random, r);
            line("s=", &characters[random.index(characters.len())])
        }
        2 => damage::deleted(&right, at),
        3 => damage::inserted(&right, at, random.pick(b"01 \r\0\xffs=\n")),
        4 => damage::replaced(&right, at, random.pick(b"2 \r\0\xffO=\n")),
        5 => line(random.pick(&KEYS), &any_bits(random, r)),
        _ => random.pick(&WHOLE).to_vec(),
    }
}
