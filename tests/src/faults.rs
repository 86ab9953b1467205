//! Faults that are put into a sheet, one for each way in which a check from 6 to 14 can fail. A sheet that has a fault
//! already may get another, which can also take the first away: what the answer is, the checks say.

use crate::codes::{claiming, of_weight, single, string_of_weight, times, MOST_DISTANCE};
use crate::group;
use crate::product::{commute, product};
use crate::random::Random;
use crate::sheet::{weight, Letter, Row, Sheet};

/// Gives the sheet with the fault, or none where it has no place for it.
pub type Fault = fn(&mut Random, &Sheet) -> Option<Sheet>;

/// So often something of the right kind is tried.
const TRIES: usize = 200;

/// The number of the check that meets each of them in a sheet that is admitted.
pub const FAULTS: [(u32, Fault); 18] = [
    (6, generators_clash),
    (7, minus_a_product),
    (8, a_product),
    (9, x_detected),
    (9, z_detected),
    (10, xs_swapped),
    (10, zs_swapped),
    (10, x_times_other_z),
    (10, z_times_other_x),
    (10, x_in_group),
    (10, z_in_group),
    (11, distance_one_more),
    (11, distance_one_less),
    (11, claim_one_lighter),
    (12, claim_detected),
    (12, distance_and_claim_one_less),
    (13, claim_in_group),
    (14, claim_heavier),
];

/// The row times a letter on one qubit, so that it anticommutes with another row; none where that is I alone.
fn clashing(random: &mut Random, row: &Row, other: &Row) -> Option<Row> {
    let n = row.letters.len();
    let single = |_| {
        let letter = random.pick(&Letter::ALL[1..]);
        times(row, &single(n, random.index(n), letter))
    };
    (0..TRIES).map(single).find(|row| !commute(row, other))
}

fn generators_clash(random: &mut Random, sheet: &Sheet) -> Option<Sheet> {
    let mut sheet = sheet.clone();
    let later = 1 + random.index(sheet.generators.len().checked_sub(1).filter(|&m| m > 0)?);
    let earlier = random.index(later);
    let rows = &mut sheet.generators;
    rows[later] = clashing(random, &rows[later], &rows[earlier])?;
    Some(sheet)
}

fn minus_a_product(random: &mut Random, sheet: &Sheet) -> Option<Sheet> {
    let (sheet, at) = with_product(random, sheet);
    Some(with_sign_changed(sheet, at))
}

fn a_product(random: &mut Random, sheet: &Sheet) -> Option<Sheet> {
    Some(with_product(random, sheet).0)
}

/// A generator in the place of which stands a product of some above it, and where. Its sign is that of the product, or
/// any where they do not commute.
fn with_product(random: &mut Random, sheet: &Sheet) -> (Sheet, usize) {
    let mut sheet = sheet.clone();
    let at = random.index(sheet.generators.len());
    let selected = sheet.generators[..at]
        .iter()
        .filter(|_| random.below(2) == 0);
    let product = product(sheet.n, selected);
    let plus = product.plus_row();
    sheet.generators[at] = product.row().unwrap_or(plus);
    (sheet, at)
}

fn with_sign_changed(mut sheet: Sheet, at: usize) -> Sheet {
    sheet.generators[at].minus ^= true;
    sheet
}

fn x_detected(random: &mut Random, sheet: &Sheet) -> Option<Sheet> {
    let mut sheet = sheet.clone();
    sheet.xs = with_one_detected(random, &sheet.xs, &sheet.generators)?;
    Some(sheet)
}

fn z_detected(random: &mut Random, sheet: &Sheet) -> Option<Sheet> {
    let mut sheet = sheet.clone();
    sheet.zs = with_one_detected(random, &sheet.zs, &sheet.generators)?;
    Some(sheet)
}

fn with_one_detected(random: &mut Random, rows: &[Row], generators: &[Row]) -> Option<Vec<Row>> {
    let mut rows = rows.to_vec();
    let (at, by) = (random.index(rows.len()), random.index(generators.len()));
    rows[at] = clashing(random, &rows[at], &generators[by])?;
    Some(rows)
}

fn xs_swapped(random: &mut Random, sheet: &Sheet) -> Option<Sheet> {
    let mut sheet = sheet.clone();
    let (i, j) = two_pairs(random, &sheet)?;
    sheet.xs.swap(i, j);
    Some(sheet)
}

fn zs_swapped(random: &mut Random, sheet: &Sheet) -> Option<Sheet> {
    let mut sheet = sheet.clone();
    let (i, j) = two_pairs(random, &sheet)?;
    sheet.zs.swap(i, j);
    Some(sheet)
}

fn x_times_other_z(random: &mut Random, sheet: &Sheet) -> Option<Sheet> {
    let mut sheet = sheet.clone();
    let (i, j) = two_pairs(random, &sheet)?;
    sheet.xs[i] = times(&sheet.xs[i], &sheet.zs[j]);
    Some(sheet)
}

fn z_times_other_x(random: &mut Random, sheet: &Sheet) -> Option<Sheet> {
    let mut sheet = sheet.clone();
    let (i, j) = two_pairs(random, &sheet)?;
    sheet.zs[i] = times(&sheet.zs[i], &sheet.xs[j]);
    Some(sheet)
}

fn two_pairs(random: &mut Random, sheet: &Sheet) -> Option<(usize, usize)> {
    let k = sheet.xs.len();
    let i = random.index(k);
    let by = random.index(k.checked_sub(1).filter(|&m| m > 0)?);
    Some((i, (i + 1 + by) % k))
}

fn x_in_group(random: &mut Random, sheet: &Sheet) -> Option<Sheet> {
    let mut sheet = sheet.clone();
    let (at, by) = (
        random.index(sheet.xs.len()),
        random.index(sheet.generators.len()),
    );
    sheet.xs[at] = sheet.generators[by].clone();
    Some(sheet)
}

fn z_in_group(random: &mut Random, sheet: &Sheet) -> Option<Sheet> {
    let mut sheet = sheet.clone();
    let (at, by) = (
        random.index(sheet.zs.len()),
        random.index(sheet.generators.len()),
    );
    sheet.zs[at] = sheet.generators[by].clone();
    Some(sheet)
}

fn distance_one_more(_: &mut Random, sheet: &Sheet) -> Option<Sheet> {
    let d = sheet.d + 1;
    (d <= MOST_DISTANCE).then(|| Sheet { d, ..sheet.clone() })
}

fn distance_one_less(_: &mut Random, sheet: &Sheet) -> Option<Sheet> {
    let d = sheet.d - 1;
    (d > 0).then(|| Sheet { d, ..sheet.clone() })
}

fn claim_one_lighter(random: &mut Random, sheet: &Sheet) -> Option<Sheet> {
    let mut sheet = sheet.clone();
    let struck = (0..sheet.n).filter(|&qubit| sheet.claim[qubit] != Letter::I);
    let struck: Vec<usize> = struck.collect();
    if struck.is_empty() {
        return None;
    }
    sheet.claim[random.pick(&struck)] = Letter::I;
    Some(sheet)
}

/// A lightest logical error with a letter less is detected.
fn distance_and_claim_one_less(random: &mut Random, sheet: &Sheet) -> Option<Sheet> {
    let shorter = distance_one_less(random, sheet)?;
    claim_one_lighter(random, &shorter)
}

/// Any string of weight d, or w with another letter on one qubit.
fn claim_detected(random: &mut Random, sheet: &Sheet) -> Option<Sheet> {
    let mut sheet = sheet.clone();
    let is_detected = |letters: &[Letter]| {
        let letters = letters.to_vec();
        let row = Row {
            minus: false,
            letters,
        };
        sheet.generators.iter().any(|g| !commute(g, &row))
    };
    let string = |_| {
        let at = random.index(sheet.n);
        let mut letters = sheet.claim.clone();
        if letters[at] != Letter::I && random.below(2) == 0 {
            letters[at] = random.pick(&Letter::ALL[1..]);
            return letters;
        }
        string_of_weight(random, sheet.n, sheet.d.min(sheet.n))
    };
    let found = (0..TRIES).map(string).find(|letters| is_detected(letters));
    sheet.claim = found?;
    Some(sheet)
}

/// A product of one, two or three generators, with its weight for d.
fn claim_in_group(random: &mut Random, sheet: &Sheet) -> Option<Sheet> {
    let rows = &sheet.generators;
    let member = |_| {
        let selected = (0..1 + random.index(3)).map(|_| &rows[random.index(rows.len())]);
        product(sheet.n, selected).letters
    };
    let is_light = |letters: &Vec<Letter>| (1..=MOST_DISTANCE).contains(&weight(letters));
    let found = (0..TRIES).map(member).find(is_light);
    Some(claiming(sheet, found?))
}

/// A logical error that is heavier than w, with its weight for d. Generators that clash have no group to be outside of.
pub fn claim_heavier(random: &mut Random, sheet: &Sheet) -> Option<Sheet> {
    if group::check(&sheet.generators).is_err_and(|refusal| refusal.number == 6) {
        return None;
    }
    let mut weights = sheet.d + 1..=MOST_DISTANCE;
    let found = weights.find_map(|v| of_weight(random, sheet, v));
    Some(claiming(sheet, found?))
}

#[cfg(test)]
mod tests {
    use super::*;
    use crate::admission::check;
    use crate::codes::{any_code, with_distance};

    #[test]
    fn each_fault_meets_its_check() {
        let mut random = Random(31);
        let mut met = [0; 15];
        for n in (2..=12).flat_map(|n| [n; 6]).chain([16, 20, 24]) {
            let r = 1 + random.index(n - 1);
            let sheet = any_code(&mut random, n, r);
            let sheet = with_distance(&mut random, &sheet).unwrap();
            for (number, fault) in FAULTS {
                let Some(faulty) = fault(&mut random, &sheet) else {
                    continue;
                };
                let refusal = check(&faulty, 0).expect_err("a fault").refusal;
                assert_eq!(refusal.number, number);
                met[number as usize] += 1;
            }
        }
        assert!(met[6..].iter().all(|&count| count > 10), "{met:?}");
    }
}
