//! Sheets to be admitted or refused, and records to be checked.

use super::{each_change, unchanged, Codes, Part};
use crate::cases::{Case, Kind};
use crate::codes::{any_code, with_distance};
use crate::faults::FAULTS;
use crate::random::Random;
use crate::samples::{self, A, CLASH, EIGHT, FOUR, I, K, NINE};
use crate::sheet::Sheet;
use crate::{damage, published};

type Texts = Vec<Vec<u8>>;

/// Two pairs, so that a logical can be at fault in more ways than one.
const TWO_PAIRS: &str = "\
n=3
d=1
g=-ZZI
x=+XXI
x=+IIX
z=+ZII
z=-IIZ
w=IIX
";

pub fn parts(codes: &Codes) -> Vec<Part> {
    let mut random = Random(0x5eed_000a_1996);
    let published = with_faults(&mut random, &codes.published);
    let generated = with_faults(&mut random, &codes.generated);
    let with_two_faults = with_two_faults(&mut random);
    let distances = codes.with_longer_distances.iter().flatten();
    let distances: Texts = distances.map(Sheet::text).collect();
    vec![
        Part::kept(sheets(samples::starred())),
        Part::kept(sheets(of_each_number())),
        Part::kept(records([K, CLASH])),
        Part::kept([8, 10, 11, 14, 25].map(|change| changed(K, change)).into()),
        Part::sampled(0, sheets(samples::published())),
        Part::sampled(0, sheets(samples::repetitions())),
        Part::sampled(0, sheets(as_printed())),
        Part::sampled(0, sheets(published.clone())),
        Part::sampled(0, sheets(generated.clone())),
        Part::sampled(0, sheets(with_two_faults.clone())),
        Part::sampled(0, sheets(distances)),
        Part::sampled(0, sheets(any_rows(&mut random))),
        Part::sampled(0, sheets(cut())),
        Part::sampled(0, sheets(damaged(&mut random, &generated))),
        Part::sampled(0, sheets(misnumbered(&generated))),
        Part::sampled(0, sheets(long())),
        Part::sampled(0, records(samples::starred())),
        Part::sampled(0, records(published)),
        Part::sampled(0, records(generated)),
        Part::sampled(0, records(with_two_faults)),
        Part::sampled(0, each_change(Kind::Checks, to_be_changed(&mut random))),
    ]
}

fn sheets<T: Into<Vec<u8>>>(texts: impl IntoIterator<Item = T>) -> Vec<Case> {
    unchanged(Kind::Admission, texts)
}

fn records<T: Into<Vec<u8>>>(texts: impl IntoIterator<Item = T>) -> Vec<Case> {
    unchanged(Kind::Checks, texts)
}

fn changed(text: &str, change: usize) -> Case {
    Case::of(Kind::Checks, text).changed(change)
}

/// Short sheets that meet each number: most twice, together with the starred sheets. Some have a fault of a later
/// number on an earlier line, or two faults of one number.
fn of_each_number() -> Vec<String> {
    let three = samples::repetition(3).replace("d=1", "d=3");
    vec![
        "X".repeat(4097),
        K.to_string() + "\n",
        K.replace("n=2", "n=1"),
        K.replace("d=1", "d=8"),
        K.replace("g=+ZZ\n", ""),
        CLASH.to_string(),
        K.replace("g=+ZZ", "g=-II"),
        K.replace("g=+ZZ", "g=+II"),
        // 10 at line 5 and 9 at line 7
        TWO_PAIRS
            .replace("x=+IIX", "x=+ZII")
            .replace("z=-IIZ", "z=-XII"),
        TWO_PAIRS.replace("z=-IIZ", "z=-IIX"),
        K.replace("d=1", "d=2"),
        K.replace("w=ZI", "w=XI"),
        K.replace("d=1", "d=2").replace("w=ZI", "w=ZZ"),
        three.replace("w=ZII", "w=XXX"),
        TWO_PAIRS.to_string(),
    ]
}

/// Tables that are refused as they are printed, and one of them put right.
fn as_printed() -> [String; 3] {
    let twenty_five = published::twenty_five();
    [FOUR.to_string(), published::four_put_right(), twenty_five]
}

/// Each of the codes, and each with every fault that it has a place for.
fn with_faults(random: &mut Random, codes: &[Sheet]) -> Texts {
    let sheets = codes.iter().flat_map(|sheet| faulty(random, sheet));
    sheets.map(|sheet| sheet.text()).collect()
}

/// The sheet, and the sheet with each of the faults that it has a place for.
fn faulty(random: &mut Random, sheet: &Sheet) -> Vec<Sheet> {
    let faults = FAULTS.iter();
    let mut sheets: Vec<Sheet> = faults
        .filter_map(|(_, fault)| fault(random, sheet))
        .collect();
    sheets.insert(0, sheet.clone());
    sheets
}

/// Each fault behind each other, in codes with two generators and two pairs at least.
fn with_two_faults(random: &mut Random) -> Texts {
    let mut texts = Texts::new();
    for n in [4, 5, 6, 8, 11] {
        for (_, first) in FAULTS {
            for (_, second) in FAULTS {
                let r = 2 + random.index(n - 3);
                let code = any_code(random, n, r);
                let sheet = with_distance(random, &code);
                let faulty = sheet.and_then(|sheet| first(random, &sheet));
                let twice = faulty.and_then(|sheet| second(random, &sheet));
                texts.extend(twice.map(|sheet| sheet.text()));
            }
        }
    }
    texts
}

/// Rows of any letters, most of which clash; and one generator with any logicals.
fn any_rows(random: &mut Random) -> Texts {
    let mut texts = Texts::new();
    for n in 2..=24 {
        for r in [1, 1 + random.index(n - 1)] {
            let d = 1 + random.index(7);
            texts.push(samples::any_rows(random, n, r, d).text());
        }
    }
    texts
}

fn cut() -> Texts {
    let texts = [K, A, NINE, EIGHT, TWO_PAIRS].map(str::as_bytes);
    texts.into_iter().flat_map(damage::prefixes).collect()
}

/// Short sheets with each byte replaced by others, and longer ones with some byte replaced, too much or missing. Where
/// the form stays, a letter, a sign or a digit is another.
fn damaged(random: &mut Random, generated: &[Vec<u8>]) -> Texts {
    let mut texts = Texts::new();
    for text in [K, TWO_PAIRS, A].map(str::as_bytes) {
        for at in 0..text.len() {
            texts.extend(b"IXYZ+-123\n".map(|byte| damage::replaced(text, at, byte)));
        }
    }
    for text in generated {
        let (at, byte) = (random.index(text.len()), random.pick(b"IXYZ+-147\n"));
        texts.push(damage::replaced(text, at, byte));
        if random.below(4) == 0 {
            texts.push(damage::inserted(text, at, byte));
            texts.push(damage::deleted(text, at));
        }
    }
    for text in [K, TWO_PAIRS, A, EIGHT].map(str::as_bytes) {
        texts.extend(damage::lines_swapped(text));
        texts.extend(damage::lines_doubled(text));
        texts.extend(damage::lines_dropped(text));
    }
    texts
}

/// Sheets with another number of qubits or another distance.
fn misnumbered(generated: &[Vec<u8>]) -> Texts {
    const LINES: [(&str, &str); 8] = [
        ("n=", "1"),
        ("n=", "25"),
        ("n=", "2"),
        ("n=", "012"),
        ("d=", "8"),
        ("d=", "9"),
        ("d=", "0"),
        ("d=", "7"),
    ];
    let mut texts = Texts::new();
    for text in generated.iter().step_by(25) {
        texts.extend(LINES.map(|(key, number)| damage::renumbered(text, key, number)));
    }
    texts
}

/// A sheet with bytes behind it, up to 4,096 and more.
fn long() -> Texts {
    let filled = |text: &str, len| damage::filled(text.as_bytes(), b"s=0\n", len);
    let lengths = [K.len() + 1, 4095, 4096, 4097, 5000];
    let texts = [K, CLASH, I].into_iter();
    texts
        .flat_map(|text| lengths.map(|len| filled(text, len)))
        .collect()
}

/// Records of several sizes, with faults and without, and the record beside a refused reading.
fn to_be_changed(random: &mut Random) -> Texts {
    let mut texts: Texts = samples::starred().map(String::into_bytes).into();
    texts.extend([TWO_PAIRS, NINE, CLASH, ""].map(|text| text.as_bytes().to_vec()));
    for n in [7, 13, 24] {
        let r = 1 + random.index(n - 1);
        let code = any_code(random, n, r);
        texts.extend(with_distance(random, &code).map(|sheet| sheet.text()));
    }
    texts
}

#[cfg(test)]
mod tests {
    use super::*;
    use crate::answers::answer;

    #[test]
    fn short_sheets_have_every_number() {
        let texts = samples::starred().into_iter().chain(of_each_number());
        let answers: Vec<u8> = sheets(texts).iter().flat_map(answer).collect();
        let answers = String::from_utf8(answers).unwrap();
        for number in 1..=14 {
            assert!(answers.contains(&format!(" r={number} at=")), "{number}");
        }
        assert_eq!(answers.matches("admitted").count(), 5);
    }

    #[test]
    fn every_part_has_cases() {
        let counts: Vec<usize> = parts(Codes::made())
            .iter()
            .map(|part| part.cases.len())
            .collect();
        assert!(counts.iter().all(|&count| count > 0), "{counts:?}");
        assert!(counts.iter().sum::<usize>() > 10_000, "{counts:?}");
    }
}
