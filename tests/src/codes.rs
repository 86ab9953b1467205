//! Codes with their distance: generators that get logicals, and sheets that get d and w.

use crate::lists;
use crate::logical_errors::{self, for_each_product, Undetected};
use crate::product::{commute, commuting_product, product};
use crate::random::Random;
use crate::record::Pauli;
use crate::sheet::{weight, Letter, Row, Sheet};

/// The longest distance that a sheet may claim.
pub const MOST_DISTANCE: usize = 7;

/// So many strings are tried before all products are gone through.
const TRIES: usize = 20_000;

/// So many qubits and pairs together, at most, where all products are gone through.
const FEW: usize = 20;

/// Every n with every r that a sheet may have.
pub fn sizes() -> impl Iterator<Item = (usize, usize)> {
    (2..=24).flat_map(|n| (1..n).map(move |r| (n, r)))
}

/// A sheet with these generators and with logicals made for them; d is 1, and w is the first X logical.
pub fn completed(generators: Vec<Row>) -> Sheet {
    let n = generators[0].letters.len();
    let mut rest = undetected(n, &generators);
    let (mut xs, mut zs) = (Vec::new(), Vec::new());
    while let Some(x) = rest.pop() {
        // what commutes with all the others is in the group
        let Some(at) = rest.iter().position(|row| !commute(row, &x)) else {
            continue;
        };
        let z = rest.remove(at);
        for row in &mut rest {
            let (with_x, with_z) = (commute(row, &x), commute(row, &z));
            *row = if with_z { row.clone() } else { times(row, &x) };
            *row = if with_x { row.clone() } else { times(row, &z) };
        }
        xs.push(x);
        zs.push(z);
    }
    let claim = xs[0].letters.clone();
    let d = 1;
    Sheet {
        n,
        d,
        generators,
        xs,
        zs,
        claim,
    }
}

/// Rows that generate, phases aside, all that commutes with the generators. One row goes for each generator.
fn undetected(n: usize, generators: &[Row]) -> Vec<Row> {
    let mut rows: Vec<Row> = (0..n)
        .flat_map(|qubit| [Letter::X, Letter::Z].map(|letter| single(n, qubit, letter)))
        .collect();
    for generator in generators {
        let detected = |row: &Row| !commute(row, generator);
        let at = rows.iter().position(detected);
        let one = rows.remove(at.expect("the generators are independent"));
        for row in rows.iter_mut().filter(|row| detected(row)) {
            *row = times(row, &one);
        }
    }
    rows
}

pub fn single(n: usize, qubit: usize, letter: Letter) -> Row {
    let mut letters = vec![Letter::I; n];
    letters[qubit] = letter;
    let minus = false;
    Row { minus, letters }
}

/// The code with more qubits, up to n of them, each with a generator of its own. Its distance stays.
pub fn with_qubits(sheet: &Sheet, n: usize) -> Sheet {
    let wider = |letters: &[Letter]| {
        let mut letters = letters.to_vec();
        letters.resize(n, Letter::I);
        letters
    };
    let rows = |rows: &[Row]| -> Vec<Row> {
        let row = |row: &Row| Row {
            letters: wider(&row.letters),
            ..*row
        };
        rows.iter().map(row).collect()
    };
    let mut generators = rows(&sheet.generators);
    generators.extend((sheet.n..n).map(|qubit| single(n, qubit, Letter::X)));
    Sheet {
        n,
        d: sheet.d,
        generators,
        xs: rows(&sheet.xs),
        zs: rows(&sheet.zs),
        claim: wider(&sheet.claim),
    }
}

/// The product with sign +.
pub fn times(left: &Row, right: &Row) -> Row {
    product(left.letters.len(), [left, right]).plus_row()
}

/// A code with r generators, whose rows have many letters or few.
pub fn any_code(random: &mut Random, n: usize, r: usize) -> Sheet {
    if random.below(4) == 0 {
        lists::code(random, n, r)
    } else {
        lists::dense_code(random, n, r)
    }
}

/// The code in other clothes: its qubits in another order, X, Y and Z in other roles on each of them, any signs, and
/// products for generators. Its distance and the weights of its group's members stay.
pub fn disguised(random: &mut Random, sheet: &Sheet) -> Sheet {
    let order = shuffled(random, (0..sheet.n).collect());
    let roles: Vec<Vec<Letter>> = (0..sheet.n)
        .map(|_| shuffled(random, Letter::ALL[1..].to_vec()))
        .collect();
    let letters = |letters: &[Letter]| -> Vec<Letter> {
        let moved = order.iter().map(|&from| letters[from]).zip(&roles);
        moved
            .map(|(letter, roles)| in_role(letter, roles))
            .collect()
    };
    let mut rows = |rows: &[Row]| -> Vec<Row> {
        let row = |row: &Row| Row {
            minus: random.below(2) == 0,
            letters: letters(&row.letters),
        };
        rows.iter().map(row).collect()
    };
    let (xs, zs) = (rows(&sheet.xs), rows(&sheet.zs));
    let mut generators = rows(&sheet.generators);
    for i in 1..generators.len() {
        let other = random.index(i);
        if random.below(2) == 0 {
            generators[i] = commuting_product(&generators[i], &generators[other]);
        }
    }
    Sheet {
        n: sheet.n,
        d: sheet.d,
        generators,
        xs,
        zs,
        claim: letters(&sheet.claim),
    }
}

fn shuffled<T>(random: &mut Random, mut list: Vec<T>) -> Vec<T> {
    for i in 1..list.len() {
        list.swap(i, random.index(i + 1));
    }
    list
}

/// The letter in whose place this one stands; I stays.
fn in_role(letter: Letter, roles: &[Letter]) -> Letter {
    let role = Letter::ALL[1..].iter().position(|&l| l == letter);
    role.map_or(Letter::I, |role| roles[role])
}

/// The sheet with its distance, and for w a logical error of that weight: the earliest, or any. None where the
/// distance is more than a sheet may claim.
pub fn with_distance(random: &mut Random, sheet: &Sheet) -> Option<Sheet> {
    with_distance_at_most(random, sheet, MOST_DISTANCE)
}

/// The same; none where the distance is more than this.
pub fn with_distance_at_most(random: &mut Random, sheet: &Sheet, most: usize) -> Option<Sheet> {
    let earliest = logical_errors::earliest(sheet, most)?;
    let d = weight(&earliest);
    let claim = match random.below(3) {
        0 => earliest,
        _ => of_weight(random, sheet, d).unwrap_or(earliest),
    };
    Some(claiming(sheet, claim))
}

/// The sheet with this string for w, and its weight for d.
pub fn claiming(sheet: &Sheet, claim: Vec<Letter>) -> Sheet {
    let d = weight(&claim);
    Sheet {
        d,
        claim,
        ..sheet.clone()
    }
}

/// The sheet with its distance, and with each longer one for which a logical error is found.
pub fn with_longer_distances(random: &mut Random, sheet: &Sheet) -> Vec<Sheet> {
    let claims = match sheet.n + sheet.xs.len() <= FEW {
        true => of_each_weight(sheet),
        false => earliest_and_heavier(random, sheet),
    };
    let claims = claims.into_iter();
    claims.map(|claim| claiming(sheet, claim)).collect()
}

fn earliest_and_heavier(random: &mut Random, sheet: &Sheet) -> Vec<Vec<Letter>> {
    let Some(earliest) = logical_errors::earliest(sheet, MOST_DISTANCE) else {
        return Vec::new();
    };
    let heavier = weight(&earliest) + 1..=MOST_DISTANCE;
    let mut claims = vec![earliest];
    claims.extend(heavier.filter_map(|v| of_weight(random, sheet, v)));
    claims
}

/// A logical error of each weight that a sheet may claim, the lightest first. All products are gone through.
pub fn of_each_weight(sheet: &Sheet) -> Vec<Vec<Letter>> {
    let mut found = [None; MOST_DISTANCE + 1];
    for_each_product(sheet, |a, b| {
        let weight = (a | b).count_ones() as usize;
        if weight <= MOST_DISTANCE {
            found[weight] = Some(Pauli { p: 0, a, b });
        }
    });
    let found = found.into_iter().flatten();
    found.map(|pauli| pauli.letters(sheet.n)).collect()
}

/// A logical error of this weight, where one is found.
pub fn of_weight(random: &mut Random, sheet: &Sheet, v: usize) -> Option<Vec<Letter>> {
    if v > sheet.n {
        return None;
    }
    let code = Undetected::of(&sheet.generators);
    let tried = (0..TRIES).map(|_| string_of_weight(random, sheet.n, v));
    let found = { tried }.find(|letters| code.has_logical(letters));
    found.or_else(|| match sheet.n + sheet.xs.len() <= FEW {
        true => { of_each_weight(sheet).into_iter() }.find(|letters| weight(letters) == v),
        false => None,
    })
}

pub fn string_of_weight(random: &mut Random, n: usize, v: usize) -> Vec<Letter> {
    let mut letters = vec![Letter::I; n];
    let mut ahead = v;
    while ahead > 0 {
        let qubit = random.index(n);
        if letters[qubit] == Letter::I {
            letters[qubit] = random.pick(&Letter::ALL[1..]);
            ahead -= 1;
        }
    }
    letters
}

#[cfg(test)]
mod tests {
    use super::*;
    use crate::admission::check;
    use crate::group;

    #[test]
    fn logicals_are_made_for_any_generators() {
        let mut random = Random(21);
        for n in 2..=24 {
            let r = 1 + random.index(n - 1);
            let generators = any_code(&mut random, n, r).generators;
            let sheet = completed(generators);
            assert_eq!((sheet.xs.len(), sheet.zs.len()), (n - r, n - r));
            let sheet = with_distance(&mut random, &sheet).unwrap();
            assert_eq!(check(&sheet, 0), Ok(()), "{n} {r}");
        }
    }

    #[test]
    fn a_code_in_other_clothes_has_the_same_distance() {
        let mut random = Random(23);
        for n in 2..=12 {
            let sheet = any_code(&mut random, n, n / 2);
            let sheet = with_distance(&mut random, &sheet).unwrap();
            let other = disguised(&mut random, &sheet);
            assert_ne!(other, sheet);
            assert_eq!(check(&other, 0), Ok(()));
        }
    }

    #[test]
    fn a_logical_error_has_the_weight_that_was_asked_for() {
        let mut random = Random(22);
        for n in [5, 9, 12] {
            let sheet = any_code(&mut random, n, n - 2);
            for v in 1..=n {
                let Some(letters) = of_weight(&mut random, &sheet, v) else {
                    continue;
                };
                assert_eq!(weight(&letters), v);
                assert_eq!(group::member(&sheet.generators, &letters), None);
            }
        }
    }
}
