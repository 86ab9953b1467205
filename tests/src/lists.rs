//! Lists of rows that commute, that depend on one another, or that clash.

use crate::product::{commute, product, Product};
use crate::random::Random;
use crate::samples::any_row;
use crate::sheet::{weight, Letter, Row, Sheet};

/// As many rows as there are qubits, which commute and do not depend on one another: Z on each qubit, turned many
/// times.
pub fn commuting(random: &mut Random, n: usize) -> Vec<Row> {
    let rows = on_each_qubit(random, n, Letter::Z);
    turned_many_times(random, n, rows)
}

/// A sheet with r generators that passes the checks 6 to 10: Z on each qubit, and X on those behind the first r,
/// turned many times.
pub fn code(random: &mut Random, n: usize, r: usize) -> Sheet {
    let rows = all_rows(random, n, r);
    let rows = turned_many_times(random, n, rows);
    sheet(rows, n, r)
}

/// The same, turned about rows with any letters, so that the rows have many letters other than I.
pub fn dense_code(random: &mut Random, n: usize, r: usize) -> Sheet {
    let mut rows = all_rows(random, n, r);
    for _ in 0..2 * n + random.index(n) {
        let about = any_row(random, n);
        rows = rows.iter().map(|row| turned(row, &about)).collect();
    }
    sheet(rows, n, r)
}

/// Z on each qubit, and X on those behind the first r.
fn all_rows(random: &mut Random, n: usize, r: usize) -> Vec<Row> {
    let mut rows = on_each_qubit(random, n, Letter::Z);
    rows.extend(on_each_qubit(random, n, Letter::X).split_off(r));
    rows
}

/// The sheet of such rows: r generators, the Z logicals, the X logicals.
fn sheet(mut generators: Vec<Row>, n: usize, r: usize) -> Sheet {
    let xs = generators.split_off(n);
    let zs = generators.split_off(r);
    let claim = xs[0].letters.clone();
    let d = weight(&claim).min(7);
    Sheet {
        n,
        d,
        generators,
        xs,
        zs,
        claim,
    }
}

/// For each qubit the row with this letter there, with some sign.
fn on_each_qubit(random: &mut Random, n: usize, letter: Letter) -> Vec<Row> {
    let row = |qubit: usize| {
        let mut letters = vec![Letter::I; n];
        letters[qubit] = letter;
        let minus = random.pick(&[false, true]);
        Row { minus, letters }
    };
    (0..n).map(row).collect()
}

fn turned_many_times(random: &mut Random, n: usize, mut rows: Vec<Row>) -> Vec<Row> {
    for _ in 0..1 + random.index(4 * n) {
        let about = light_row(random, n);
        for row in &mut rows {
            *row = turned(row, &about);
        }
    }
    rows
}

/// A row with one or two letters other than I, at most.
fn light_row(random: &mut Random, n: usize) -> Row {
    let mut letters = vec![Letter::I; n];
    for _ in 0..2 {
        letters[random.index(n)] = random.pick(&Letter::ALL);
    }
    let minus = random.pick(&[false, true]);
    Row { minus, letters }
}

/// A quarter turn about a row P takes Q to i P Q where they anticommute, and leaves it where they commute. As a
/// conjugation it keeps products, so turned rows commute, and depend on one another, as they did before.
fn turned(row: &Row, about: &Row) -> Row {
    if commute(row, about) {
        return row.clone();
    }
    let mut product = product(row.letters.len(), [about, row]);
    product.power = (product.power + 1) % 4;
    product.row().expect("i times two rows that anticommute")
}

/// The product of some of the rows.
pub fn some_product(random: &mut Random, n: usize, rows: &[Row]) -> Product {
    product(n, rows.iter().filter(|_| random.pick(&[false, true])))
}

/// One row, in some place, replaced by a product of some rows before it, or by minus that.
pub fn with_dependence(random: &mut Random, rows: &[Row], minus: bool) -> Vec<Row> {
    let mut rows = rows.to_vec();
    let at = random.index(rows.len());
    let product = some_product(random, rows[0].letters.len(), &rows[..at]);
    let mut row = product.row().expect("the rows commute");
    row.minus ^= minus;
    rows[at] = row;
    rows
}

/// One row, behind the first, replaced by a row that clashes with those before it; none where there is no such row.
pub fn with_clash(random: &mut Random, rows: &[Row]) -> Option<Vec<Row>> {
    let mut rows = rows.to_vec();
    if rows.len() < 2 {
        return None;
    }
    let at = 1 + random.index(rows.len() - 1);
    rows[at] = clashing(random, &rows[..at])?;
    Some(rows)
}

/// A row that anticommutes with one of the rows; none where they are all I.
pub fn clashing(random: &mut Random, rows: &[Row]) -> Option<Row> {
    let is_i = |row: &&Row| row.letters.iter().all(|&letter| letter == Letter::I);
    let rows: Vec<&Row> = rows.iter().filter(|row| !is_i(row)).collect();
    if rows.is_empty() {
        return None;
    }
    let one = random.pick(&rows);
    loop {
        let row = any_row(random, one.letters.len());
        if !commute(&row, one) {
            return Some(row);
        }
    }
}

#[cfg(test)]
mod tests {
    use super::*;
    use crate::group::check;

    #[test]
    fn codes_pass_6_to_10() {
        let mut random = Random(7);
        for n in 2..=24 {
            let r = 1 + random.index(n - 1);
            let make = random.pick(&[code, dense_code]);
            let sheet = make(&mut random, n, r);
            let logicals: Vec<&Row> = sheet.xs.iter().chain(&sheet.zs).collect();
            assert_eq!(check(&sheet.generators), Ok(()));
            for (i, one) in logicals.iter().enumerate() {
                assert!(sheet.generators.iter().all(|row| commute(row, one)));
                for (j, other) in logicals.iter().enumerate() {
                    assert_eq!(commute(one, other), i.abs_diff(j) != n - r);
                }
            }
        }
    }
}
