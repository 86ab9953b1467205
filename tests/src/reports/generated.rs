//! Inputs that are made from seeds. Seeds that follow on one another go through all sizes of codes, and then on to the
//! next kind of input.

use super::codes::{admitted, asked, light_errors, of_any_bits, off_form_line};
use super::codes::{published_code, smaller, with_errors, Size, MOST_BYTES};
use super::damaged::DAMAGES;
use super::Input;
use crate::codes::sizes;
use crate::damage::filled;
use crate::faults::{claim_heavier, FAULTS};
use crate::random::Random;
use crate::samples::{self, any_row};
use crate::sheet::Sheet;

/// Makes an input with a code of this size, or of a smaller one.
type Kind = fn(&mut Random, Size) -> Input;

const KINDS: [Kind; 14] = [
    corrected,
    decoded,
    with_many_lines,
    nearly_too_long,
    too_long,
    faulty,
    refuted,
    faulty_twice,
    any_rows,
    published,
    off_form,
    miscounted,
    any_bytes,
    damaged_often,
];

/// Every n with every r.
const SIZES: usize = 23 * 24 / 2;

/// So often each kind occurs with each size.
const ROUNDS: usize = 3;

/// One of so many inputs comes slowly.
const SLOW: u64 = 64;

/// So many inputs have each kind with each size once.
pub const ROUND: usize = (KINDS.len() + DAMAGES.len()) * SIZES;

/// So many inputs has a run.
pub const COUNT: usize = ROUNDS * ROUND;

pub fn input(seed: u64) -> Input {
    let (kind, size) = kind_and_size(seed);
    let mut random = Random::of_seed(seed);
    Input {
        name: format!("seed {seed}"),
        slowly: random.below(SLOW) == 0,
        ..of_kind(&mut random, kind, size)
    }
}

fn kind_and_size(seed: u64) -> (usize, Size) {
    let [all_kinds, all_sizes] = [KINDS.len() + DAMAGES.len(), SIZES].map(|count| count as u64);
    let size = sizes().nth((seed % all_sizes) as usize);
    let kind = seed / all_sizes % all_kinds;
    (kind as usize, size.expect("as many sizes"))
}

fn of_kind(random: &mut Random, kind: usize, size: Size) -> Input {
    match kind.checked_sub(KINDS.len()) {
        None => KINDS[kind](random, size),
        Some(damage) => {
            let (_, text) = small(random, size);
            DAMAGES[damage](random, &text).into()
        }
    }
}

/// A code of a smaller size, and its sheet with some lines.
fn small(random: &mut Random, size: Size) -> (Sheet, Vec<u8>) {
    let size = smaller(random, size);
    let sheet = admitted(random, size);
    let text = with_lines(random, &sheet);
    (sheet, text)
}

fn with_lines(random: &mut Random, sheet: &Sheet) -> Vec<u8> {
    let count = random.index(5);
    [sheet.text(), asked(random, sheet, count)].concat()
}

/// Errors that the code corrects.
fn corrected(random: &mut Random, size: Size) -> Input {
    let sheet = admitted(random, size);
    let errors = light_errors(random, &sheet, 12);
    with_errors(&sheet, errors)
}

/// Any syndromes.
fn decoded(random: &mut Random, size: Size) -> Input {
    let sheet = admitted(random, size);
    let count = random.index(20);
    [sheet.text(), asked(random, &sheet, count)].concat().into()
}

/// As many `s=` lines as there may be.
fn with_many_lines(random: &mut Random, size: Size) -> Input {
    let sheet = admitted(random, size);
    let mut text = sheet.text();
    let (_, r) = size;
    let count = (MOST_BYTES - text.len()) / of_any_bits(random, r).len();
    text.extend((0..count).flat_map(|_| of_any_bits(random, r)));
    text.into()
}

/// One byte less than there may be, to two more.
fn nearly_too_long(random: &mut Random, size: Size) -> Input {
    let len = MOST_BYTES - 1 + random.index(4);
    of_length(random, size, len)
}

fn too_long(random: &mut Random, size: Size) -> Input {
    let longer = 1 + random.index(4000);
    let lengths = [
        MOST_BYTES + longer,
        MOST_BYTES + longer,
        2 * MOST_BYTES,
        2 * MOST_BYTES + 1,
        32_768,
        65_536,
        65_537,
        100_000,
    ];
    let len = random.pick(&lengths);
    of_length(random, size, len)
}

/// Behind a sheet that may be cut there are `s=` lines, or other bytes.
fn of_length(random: &mut Random, size: Size, len: usize) -> Input {
    let (sheet, mut text) = small(random, size);
    let fillers: [&[u8]; 5] = [b"s=0\n", b"\n", b"X", b"\0", b"\xff\n"];
    let filler = match random.below(2) {
        0 => of_any_bits(random, sheet.generators.len()),
        _ => random.pick(&fillers).to_vec(),
    };
    if random.below(4) == 0 {
        text.truncate(random.index(text.len()));
    }
    filled(&text, &filler, len).into()
}

/// With one fault, and lines that may be off their form too.
fn faulty(random: &mut Random, size: Size) -> Input {
    let sheet = admitted(random, size);
    let faulty = with_any_fault(random, sheet);
    with_any_lines(random, &faulty).into()
}

/// With a longer distance than it has, where there is a logical error of a longer one.
fn refuted(random: &mut Random, size: Size) -> Input {
    let sheet = admitted(random, size);
    let refuted = claim_heavier(random, &sheet).unwrap_or(sheet);
    with_any_lines(random, &refuted).into()
}

fn faulty_twice(random: &mut Random, size: Size) -> Input {
    let size = smaller(random, size);
    let sheet = admitted(random, size);
    let once = with_any_fault(random, sheet);
    let twice = with_any_fault(random, once);
    with_any_lines(random, &twice).into()
}

/// The sheet stays as it is where it has no place for the faults that are tried.
fn with_any_fault(random: &mut Random, sheet: Sheet) -> Sheet {
    let tried = [(); 4].map(|()| random.pick(&FAULTS));
    let mut faulty = tried.iter().map(|(_, fault)| fault(random, &sheet));
    faulty.find_map(|faulty| faulty).unwrap_or(sheet)
}

/// The sheet with `s=` lines, and in half of the cases with one that is off its form.
fn with_any_lines(random: &mut Random, sheet: &Sheet) -> Vec<u8> {
    let mut text = with_lines(random, sheet);
    if random.below(2) == 0 {
        text.extend(off_form_line(random, sheet.generators.len()));
    }
    text
}

fn any_rows(random: &mut Random, (n, r): Size) -> Input {
    let d = 1 + random.index(7);
    let sheet = samples::any_rows(random, n, r, d);
    with_any_lines(random, &sheet).into()
}

fn published(random: &mut Random, _: Size) -> Input {
    let sheet = published_code(random);
    let errors = light_errors(random, &sheet, 12);
    with_errors(&sheet, errors)
}

/// Lines off their form, one or more, and others before and behind them.
fn off_form(random: &mut Random, size: Size) -> Input {
    let (sheet, mut text) = small(random, size);
    for _ in 0..1 + random.index(3) {
        text.extend(off_form_line(random, sheet.generators.len()));
        let count = random.index(2);
        text.extend(asked(random, &sheet, count));
    }
    text.into()
}

/// Any number of rows in one of the families.
fn miscounted(random: &mut Random, size: Size) -> Input {
    let size = smaller(random, size);
    let mut sheet = admitted(random, size);
    let (count, row) = (random.index(sheet.n + 2), any_row(random, sheet.n));
    let rows = match random.below(3) {
        0 => &mut sheet.generators,
        1 => &mut sheet.xs,
        _ => &mut sheet.zs,
    };
    rows.resize(count, row);
    with_any_lines(random, &sheet).into()
}

/// Bytes of any kind or such as stand in inputs, none, some or many; in half of the cases behind the front of a sheet.
fn any_bytes(random: &mut Random, size: Size) -> Input {
    let (_, mut text) = small(random, size);
    let front = random.index(text.len());
    text.truncate(front * random.index(2));
    let most = random.pick(&[1, 40, 400, MOST_BYTES + 10]);
    let (len, any_kind) = (random.index(most), random.below(2) == 0);
    let byte = |_| match any_kind {
        true => random.below(256) as u8,
        false => random.pick(b"ndgxzws=+-IXYZ01\n"),
    };
    text.extend((0..len).map(byte));
    text.into()
}

/// A sheet with faults or without, and damages on top.
fn damaged_often(random: &mut Random, size: Size) -> Input {
    let size = smaller(random, size);
    let mut sheet = admitted(random, size);
    for _ in 0..random.index(3) {
        sheet = with_any_fault(random, sheet);
    }
    let mut text = with_any_lines(random, &sheet);
    for _ in 0..1 + random.index(4) {
        if !text.is_empty() {
            text = random.pick(&DAMAGES)(random, &text);
        }
    }
    text.into()
}

#[cfg(test)]
mod tests {
    use super::*;
    use crate::report::report;
    use std::collections::HashMap;

    #[test]
    fn a_run_has_each_kind_with_each_size() {
        assert_eq!(sizes().count(), SIZES);
        const { assert!(COUNT >= 20_000) };
        for first in [0, 1, 1_800_000_000_123_457_u64] {
            let mut counts: HashMap<_, usize> = HashMap::new();
            for seed in first..first + COUNT as u64 {
                *counts.entry(kind_and_size(seed)).or_default() += 1;
            }
            assert_eq!(counts.len(), ROUND);
            assert!(counts.values().all(|&count| count == ROUNDS));
        }
    }

    #[test]
    fn an_input_is_made_again_from_its_seed() {
        let inputs = |first: u64| -> Vec<Input> {
            let seeds = (first..first + COUNT as u64).step_by(97);
            seeds.map(input).collect()
        };
        let first = inputs(12_345);
        for (one, again) in first.iter().zip(inputs(12_345)) {
            assert_eq!(
                (&one.name, &one.bytes, &one.errors),
                (&again.name, &again.bytes, &again.errors)
            );
        }
        let others = inputs(12_345 + COUNT as u64);
        let same = first.iter().zip(&others);
        let same = same.filter(|(one, other)| one.bytes == other.bytes);
        assert!(same.count() < 20);
    }

    /// Codes of each size are admitted, with as many lines as there may be.
    #[test]
    fn codes_of_each_size_are_admitted() {
        let mut random = Random(61);
        for (n, r) in sizes() {
            for kind in [corrected, with_many_lines] {
                let report = report(&kind(&mut random, (n, r)).bytes);
                let front = format!("n={n}\nk={}\n", n - r);
                assert!(report.starts_with(front.as_bytes()), "{n} {r}");
            }
        }
    }
}
