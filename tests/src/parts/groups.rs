//! Lists of rows as the generators of a sheet, whose other rows are probes for membership.

use super::{each_change, unchanged, Part};
use crate::cases::{Case, Kind};
use crate::lists;
use crate::random::Random;
use crate::samples::{self, A, CLASH, EIGHT, I, K};
use crate::sheet::{self, Letter, Row, Sheet};

/// A first row that nothing is multiplied with: the answer goes by its phase as it stands in the record.
const MINUS_I: &str = "\
n=3
d=1
g=-III
g=+ZZI
x=+XXX
z=+IIZ
w=ZZI
";

/// XX and ZZ with nothing but YY for probes.
const YY: &str = "\
n=3
d=1
g=+XXI
g=+ZZI
x=+YYI
z=-YYI
w=YYI
";

const TO_BE_CHANGED: [&str; 7] = [A, I, K, CLASH, EIGHT, MINUS_I, ""];

pub fn parts() -> Vec<Part> {
    let mut random = Random(0x5eed_0006_2009);
    let (published, repetitions) = (samples::published(), samples::repetitions());
    vec![
        Part::kept(texts([YY, MINUS_I])),
        Part::sampled(6, texts(probed(&mut random, &published))),
        Part::kept(texts(published)),
        Part::sampled(2, texts(probed(&mut random, &repetitions))),
        Part::sampled(2, texts(repetitions)),
        Part::sampled(20, each_change(Kind::Group, TO_BE_CHANGED)),
        Part::sampled(18, texts(generated(&mut random))),
    ]
}

fn texts<T: Into<Vec<u8>>>(texts: impl IntoIterator<Item = T>) -> Vec<Case> {
    unchanged(Kind::Group, texts)
}

/// The sheets with probes in place of their logical operators.
fn probed(random: &mut Random, texts: &[String]) -> Vec<Vec<u8>> {
    let probed = |text: &String| {
        let sheet = sheet::read_alone(text.as_bytes()).expect("a sheet");
        with_probes(random, &sheet.generators, &sheet.xs).text()
    };
    texts.iter().map(probed).collect()
}

/// Every n, several times.
fn generated(random: &mut Random) -> Vec<Vec<u8>> {
    let sizes = (2..=24).flat_map(|n| [n; 5]);
    let sheets = sizes.flat_map(|n| lists_of_rows(random, n));
    sheets.map(|sheet| sheet.text()).collect()
}

/// Lists of rows on n qubits, each as the generators of a sheet: as few and as many rows as there can be, and some;
/// rows that depend on others, with both signs; I and minus I; rows that clash, and those behind rows that depend on
/// others; any rows.
fn lists_of_rows(random: &mut Random, n: usize) -> Vec<Sheet> {
    let mut sheets = Vec::new();
    for r in [1, n - 1] {
        let rows = lists::commuting(random, n);
        sheets.push(with_probes(random, &rows[..r], &rows[r..]));
    }
    for _ in 0..3 {
        let (rows, others) = some_rows(random, n);
        sheets.push(with_probes(random, &rows, &others));
    }
    for minus in [false, true] {
        for _ in 0..2 {
            let (rows, others) = some_rows(random, n);
            let dependent = lists::with_dependence(random, &rows, minus);
            sheets.push(with_probes(random, &dependent, &others));
        }
        let (mut rows, others) = some_rows(random, n);
        let (at, letters) = (random.index(rows.len()), vec![Letter::I; n]);
        rows[at] = Row { minus, letters };
        sheets.push(with_probes(random, &rows, &others));
        let (rows, others) = some_rows(random, n);
        let clashing = lists::with_clash(random, &rows);
        sheets.extend(clashing.map(|rows| with_probes(random, &rows, &others)));
        sheets.extend(clash_behind_dependence(random, n, minus));
    }
    let (r, d) = (1 + random.index(n - 1), 1 + random.index(7));
    sheets.push(samples::any_rows(random, n, r, d));
    sheets
}

/// The last of n - 1 rows clashes; one of those before it depends on others.
fn clash_behind_dependence(random: &mut Random, n: usize, minus: bool) -> Option<Sheet> {
    let commuting = lists::commuting(random, n);
    let (rows, others) = commuting.split_at(n - 2);
    if rows.is_empty() {
        return None;
    }
    let mut rows = lists::with_dependence(random, rows, minus);
    rows.push(lists::clashing(random, &rows)?);
    Some(with_probes(random, &rows, others))
}

/// Rows that commute and do not depend on one another, and other such rows that commute with them.
fn some_rows(random: &mut Random, n: usize) -> (Vec<Row>, Vec<Row>) {
    let mut rows = lists::commuting(random, n);
    let others = rows.split_off(1 + random.index(n - 1));
    (rows, others)
}

/// A sheet with these generators, whose other rows are probes.
fn with_probes(random: &mut Random, generators: &[Row], others: &[Row]) -> Sheet {
    let n = generators[0].letters.len();
    let mut rows = |count: usize| -> Vec<Row> {
        let probe = |_| probe(random, generators, others);
        (0..count).map(probe).collect()
    };
    let k = n - generators.len();
    let (xs, zs) = (rows(k), rows(k));
    let claim = rows(1).remove(0).letters;
    Sheet {
        n,
        d: 1 + n % 7,
        generators: generators.to_vec(),
        xs,
        zs,
        claim,
    }
}

/// A row with the letters of a member more often than not; of a member with one letter changed; of a member times one
/// of the others; of I; or any letters. Its sign is the member's or the other one.
fn probe(random: &mut Random, generators: &[Row], others: &[Row]) -> Row {
    let n = generators[0].letters.len();
    let mut product = lists::some_product(random, n, generators);
    let mut any = samples::any_row(random, n);
    match random.below(10) {
        0 => product.letters[random.index(n)] = random.pick(&Letter::ALL),
        1 | 2 => product = product.times(&others[random.index(others.len())]),
        3 => product.letters = vec![Letter::I; n],
        4 => return any,
        _ => {}
    }
    any.letters = product.letters;
    any
}
