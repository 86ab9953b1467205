//! Inputs that are the same in each run: sheets at the edges, published codes, and the samples that are kept as files.

use super::codes::{asked, light_errors, with_errors};
use super::Input;
use crate::codes::single;
use crate::damage::{self, filled};
use crate::published;
use crate::random::Random;
use crate::samples::{self, A, CLASH, EIGHT, K, L, NINE};
use crate::sheet::{self, Letter, Sheet};
use std::fs;
use std::path::{Path, PathBuf};

type Texts = Vec<Vec<u8>>;

/// So many errors and so many other syndromes are asked about with each published code.
const ASKED: usize = 24;

pub fn inputs() -> Vec<Input> {
    let mut random = Random(0x5eed_000f_2026);
    let mut inputs = of_published(&mut random);
    inputs.push(with_errors(&read(NINE), z_in_first_block()));
    let texts = [edges(), as_printed(), cut(), damaged(), long()].concat();
    inputs.extend(texts.into_iter().map(Input::from));
    for (at, input) in (1..).zip(&mut inputs) {
        input.name = format!("fixed input {at}");
    }
    inputs.extend(kept(&samples_folder()));
    inputs
}

fn read(text: &str) -> Sheet {
    sheet::read_alone(text.as_bytes()).expect("a sheet")
}

/// Each code by itself, with the syndromes of errors that it corrects, and with others.
fn of_published(random: &mut Random) -> Vec<Input> {
    let mut codes = published::all();
    codes.push(published::golay_and_a_qubit());
    let mut inputs = Vec::new();
    for sheet in codes {
        let errors = light_errors(random, &sheet, ASKED);
        let others = [sheet.text(), asked(random, &sheet, ASKED)].concat();
        inputs.extend([
            sheet.text().into(),
            with_errors(&sheet, errors),
            others.into(),
        ]);
    }
    inputs
}

/// The three errors of the nine-qubit code that share a syndrome.
fn z_in_first_block() -> Vec<Vec<Letter>> {
    let error = |qubit| single(9, qubit, Letter::Z).letters;
    (0..3).map(error).collect()
}

/// The sheets at the edges that are written out, some with lines.
fn edges() -> Texts {
    let mut texts = samples::published();
    texts.extend(samples::repetitions());
    texts.extend(["n=1", "n=25"].map(|n| A.replace("n=5", n)));
    texts.push(samples::repetition(25));
    texts.push(A.replace("d=3", "d=8"));
    texts.push(samples::repetition(3).replace("x=", "g=+ZIZ\nx="));
    texts.extend(samples::starred().map(|text| text + "s=0000\ns=0001\ns=1010\ns=1111\n"));
    texts.extend([a_asked(), k_asked()]);
    texts.push(L.to_string() + "s=010010\ns=010001\n");
    texts.extend([CLASH, EIGHT].map(|text| text.to_string() + "s=00000\ns=10\n"));
    texts.into_iter().map(String::into_bytes).collect()
}

fn a_asked() -> String {
    A.to_string() + "s=0001\ns=1010\n"
}

fn k_asked() -> String {
    K.to_string() + "s=0\ns=1\n"
}

/// Tables that are refused as they are printed, and one of them put right.
fn as_printed() -> Texts {
    let texts = [published::four_put_right(), published::twenty_five()];
    texts.map(String::into_bytes).into()
}

/// Up to each of their bytes.
fn cut() -> Texts {
    let refuted = samples::starred()[2].clone() + "s=0001\n";
    let texts = [a_asked(), k_asked(), refuted];
    let prefixes = |text: &String| damage::prefixes(text.as_bytes());
    texts.iter().flat_map(prefixes).collect()
}

/// The shortest input with each of its bytes replaced, too much or missing; lines exchanged, twice or missing.
fn damaged() -> Texts {
    let (a, k) = (a_asked(), k_asked());
    let mut texts = Texts::new();
    for at in 0..k.len() {
        let text = k.as_bytes();
        texts.extend(b"IXYZ+-0123s\n\0\xff\r".map(|byte| damage::replaced(text, at, byte)));
        texts.extend(b"0X\n\r".map(|byte| damage::inserted(text, at, byte)));
        texts.push(damage::deleted(text, at));
    }
    for text in [a.as_bytes(), k.as_bytes()] {
        texts.extend(damage::lines_swapped(text));
        texts.extend(damage::lines_doubled(text));
        texts.extend(damage::lines_dropped(text));
    }
    texts
}

/// With 4,095 bytes K has whole lines alone.
fn long() -> Texts {
    let lengths = [4095, 4096, 4097, 4098, 100_000];
    let sheets = [K, CLASH, "n=1\n"].map(str::as_bytes);
    let texts = sheets.map(|text| lengths.map(|len| filled(text, b"s=0\n", len)));
    texts.concat()
}

fn samples_folder() -> PathBuf {
    Path::new(env!("CARGO_MANIFEST_DIR")).join("../samples")
}

/// Each `.sheet` of the folder with the `.report` beside it.
fn kept(folder: &Path) -> Vec<Input> {
    let entries = fs::read_dir(folder).expect("the samples");
    let paths = entries.map(|entry| entry.expect("a file").path());
    let mut sheets: Vec<PathBuf> = paths
        .filter(|path| path.extension().is_some_and(|ending| ending == "sheet"))
        .collect();
    sheets.sort();
    let input = |path: &PathBuf| Input {
        name: format!(
            "sample {}",
            path.file_stem().unwrap_or_default().to_string_lossy()
        ),
        bytes: fs::read(path).expect("a sheet"),
        kept: Some(fs::read(path.with_extension("report")).expect("its report")),
        ..Input::default()
    };
    sheets.iter().map(input).collect()
}

#[cfg(test)]
mod tests {
    use super::*;
    use crate::report::report;
    use crate::reports::occurred::Occurred;

    #[test]
    fn fixed_inputs_have_reports_of_many_kinds_and_those_that_are_kept() {
        let mut occurred = Occurred::default();
        for input in inputs() {
            let report = report(&input.bytes);
            let kept = input.kept.unwrap_or(report.clone());
            assert!(report == kept, "{}", input.name);
            occurred.see(&report, input.errors.len());
        }
        let missing = occurred.missing();
        let of_codes = |what: &&String| what.starts_with("a code of n=");
        let others: Vec<_> = missing.iter().filter(|what| !of_codes(what)).collect();
        assert!(others.is_empty(), "{others:?}");
    }

    #[test]
    fn samples_are_read_with_their_reports() {
        let folder = std::env::temp_dir().join(format!("samples-{}", std::process::id()));
        fs::create_dir(&folder).unwrap();
        for (name, text) in [("b.sheet", K), ("a.sheet", A), ("README.md", "")] {
            fs::write(folder.join(name), text).unwrap();
        }
        for name in ["a", "b"] {
            fs::write(folder.join(name).with_extension("report"), name).unwrap();
        }
        let samples = kept(&folder);
        fs::remove_dir_all(&folder).unwrap();
        let texts = samples.iter().map(|sample| sample.bytes.clone());
        let reports = samples.iter().map(|sample| sample.kept.clone().unwrap());
        assert_eq!(texts.collect::<Texts>(), [A, K].map(str::as_bytes));
        assert_eq!(reports.collect::<Texts>(), [b"a", b"b"]);
    }
}
