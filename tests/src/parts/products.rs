//! Lines of signed rows, to be multiplied.

use super::{unchanged, Part};
use crate::cases::{Case, Kind};
use crate::random::Random;
use crate::samples::any_row;
use crate::sheet::{Letter, Row};

pub fn parts() -> Vec<Part> {
    let mut random = Random(0x5eed_0f9a_1115);
    vec![
        Part::kept(lines(lists(&one_letter(&[false, true]), 2))),
        Part::sampled(8, lines(lists(&one_letter(&[false]), 3))),
        Part::sampled(16, lines(lists(&two_letters(), 2))),
        Part::sampled(32, lines(every_width(&mut random))),
        Part::kept(not_rows()),
    ]
}

fn lines(lists: Vec<Vec<Row>>) -> Vec<Case> {
    let line = |rows: Vec<Row>| rows.iter().map(Row::text).collect::<Vec<_>>().join(&b' ');
    let lines = lists.into_iter().map(line);
    unchanged(
        Kind::Products,
        lines.map(|line| [&line, &b"\n"[..]].concat()),
    )
}

fn one_letter(signs: &[bool]) -> Vec<Row> {
    let row = |minus| {
        Letter::ALL.map(|letter| Row {
            minus,
            letters: vec![letter],
        })
    };
    signs.iter().flat_map(|&minus| row(minus)).collect()
}

fn two_letters() -> Vec<Row> {
    let pair = |first| Letter::ALL.map(|second| vec![first, second]);
    let pairs = Letter::ALL.into_iter().flat_map(pair);
    pairs
        .map(|letters| Row {
            minus: false,
            letters,
        })
        .collect()
}

/// Every list of so many of the rows.
fn lists(rows: &[Row], count: usize) -> Vec<Vec<Row>> {
    if count == 0 {
        return vec![Vec::new()];
    }
    let longer = |list: Vec<Row>| {
        rows.iter()
            .map(move |row| [list.clone(), vec![row.clone()]].concat())
    };
    lists(rows, count - 1)
        .into_iter()
        .flat_map(longer)
        .collect()
}

/// From 1 to 32 letters, and from 1 to 8 rows.
fn every_width(random: &mut Random) -> Vec<Vec<Row>> {
    let mut lists = Vec::new();
    for n in 1..=32 {
        for count in (1..=8).flat_map(|count| [count; 4]) {
            lists.push((0..count).map(|_| any_row(random, n)).collect());
        }
    }
    lists
}

/// A lower-case letter, no sign, no letter, 33 letters, two lengths, two spaces, other bytes, nothing.
fn not_rows() -> Vec<Case> {
    let long = format!("+{}", "X".repeat(33));
    let others = [
        "+x",
        "X",
        "+",
        "-",
        &long,
        "+XX +X",
        "-X -XX -X",
        "+X  +X",
        " +X",
        "+X ",
        "+X +Q +X",
        "+X\t+X",
        "*X",
        "+X+",
        "+X\r",
        "",
    ];
    unchanged(Kind::Products, others.map(|line| format!("{line}\n")))
}
