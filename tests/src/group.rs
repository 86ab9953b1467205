//! The group of the g rows: checks 6 to 8, the member with given letters, and the canonical generators.

use crate::product::{commute, commuting_product, product};
use crate::sheet::{line, Letter, Refusal, Row, Sheet};

/// The line of the first g row in a written sheet.
const FIRST_LINE: usize = 3;

/// The longest list of rows of which all selections are gone through.
const FEW: usize = 12;

/// Checks 6 to 8: first 6 over all rows, then 7 and 8 together.
pub fn check(rows: &[Row]) -> Result<(), Refusal> {
    let clash =
        (0..rows.len()).find(|&i| rows[..i].iter().any(|earlier| !commute(&rows[i], earlier)));
    if let Some(i) = clash {
        return Err(refusal(6, i));
    }
    let dependence = |i: usize| Some((i, member(&rows[..i], &rows[i].letters)?));
    match (0..rows.len()).find_map(dependence) {
        None => Ok(()),
        Some((i, earlier)) if commuting_product(&rows[i], &earlier).minus => Err(refusal(7, i)),
        Some((i, _)) => Err(refusal(8, i)),
    }
}

fn refusal(number: u32, row: usize) -> Refusal {
    let (line, family) = (FIRST_LINE + row, Some('g'));
    Refusal {
        number,
        line,
        family,
    }
}

/// The product of a selection that has these letters, where there is one. The rows commute; those that pass 6 to 8
/// have but one.
pub fn member(rows: &[Row], letters: &[Letter]) -> Option<Row> {
    if rows.len() <= FEW {
        member_of_all(rows, letters)
    } else {
        member_by_bits(rows, letters)
    }
}

fn member_of_all(rows: &[Row], letters: &[Letter]) -> Option<Row> {
    let products = all_products(rows, letters.len());
    products
        .into_iter()
        .find(|member| member.letters == letters)
}

/// The products of all selections: each row doubles them, since it is left out or taken.
pub fn all_products(rows: &[Row], n: usize) -> Vec<Row> {
    let mut products = vec![identity(n)];
    for row in rows {
        let with_row: Vec<Row> = products.iter().map(|p| commuting_product(p, row)).collect();
        products.extend(with_row);
    }
    products
}

fn identity(n: usize) -> Row {
    let (minus, letters) = (false, vec![Letter::I; n]);
    Row { minus, letters }
}

/// The bits of the letters tell which rows to select, and the product of these its sign.
fn member_by_bits(rows: &[Row], letters: &[Letter]) -> Option<Row> {
    let mut sums: Vec<Sum> = Vec::new();
    for (i, row) in rows.iter().enumerate() {
        let sum = Sum {
            bits: bits(&row.letters),
            selected: 1 << i,
        };
        let sum = sum.lowered(&sums);
        if sum.bits != 0 {
            sums.push(sum);
        }
    }
    let target = Sum {
        bits: bits(letters),
        selected: 0,
    };
    let rest = target.lowered(&sums);
    let selected = (0..rows.len()).filter(|i| rest.selected >> i & 1 == 1);
    let product = product(letters.len(), selected.map(|i| &rows[i]));
    (rest.bits == 0).then(|| product.row().expect("the rows commute"))
}

/// Bits that are added up, and of which rows.
#[derive(Clone, Copy)]
struct Sum {
    bits: u64,
    selected: u32,
}

impl Sum {
    /// With those sums added, one after the other, that make the bits a smaller number: 0 where it is a sum of them.
    fn lowered(mut self, sums: &[Sum]) -> Sum {
        for sum in sums {
            if self.bits ^ sum.bits < self.bits {
                self.bits ^= sum.bits;
                self.selected ^= sum.selected;
            }
        }
        self
    }
}

fn bits(letters: &[Letter]) -> u64 {
    let columns = 0..2 * letters.len();
    columns.map(|c| u64::from(has(letters, c)) << c).sum()
}

/// Whether there is a one in this column of a1..an, b1..bn, which count from 0 here.
fn has(letters: &[Letter], column: usize) -> bool {
    use Letter::{X, Y, Z};
    match letters.get(column) {
        Some(letter) => matches!(letter, X | Y),
        None => matches!(letters[column - letters.len()], Y | Z),
    }
}

/// The canonical generators of rows that pass 6 to 8, column by column: a row with a one there is taken, and the
/// others lose theirs to it.
pub fn canonical_generators(rows: &[Row]) -> Vec<Row> {
    let mut rows = rows.to_vec();
    let mut taken: Vec<Row> = Vec::new();
    let n = rows.first().map_or(0, |row| row.letters.len());
    for column in 0..2 * n {
        let Some(at) = rows.iter().position(|row| has(&row.letters, column)) else {
            continue;
        };
        let first = rows.remove(at);
        for row in rows.iter_mut().chain(&mut taken) {
            if has(&row.letters, column) {
                *row = commuting_product(row, &first);
            }
        }
        taken.push(first);
    }
    taken
}

/// The `h=` lines of a sheet.
pub fn canonical_text(sheet: &Sheet) -> Result<Vec<u8>, Refusal> {
    check(&sheet.generators)?;
    let rows = canonical_generators(&sheet.generators);
    Ok(rows
        .iter()
        .flat_map(|row| line("h=", &row.text()))
        .collect())
}

#[cfg(test)]
mod tests {
    use super::*;
    use crate::lists;
    use crate::random::Random;
    use crate::samples::{self, row, A, CLASH, I, K, L, NINE};
    use crate::samples::{EIGHT, FOUR, NINE_OTHER_ROWS, SEVEN_OTHER_ROWS};
    use crate::sheet::read_alone;

    fn rows(texts: &[&str]) -> Vec<Row> {
        texts.iter().map(|text| row(text)).collect()
    }

    fn checked(texts: &[&str]) -> Result<(), (u32, usize)> {
        check(&rows(texts)).map_err(|refusal| (refusal.number, refusal.line))
    }

    fn canonical(text: &str) -> Result<String, (u32, usize)> {
        let sheet = read_alone(text.as_bytes()).expect(text);
        match canonical_text(&sheet) {
            Ok(lines) => Ok(String::from_utf8(lines).unwrap()),
            Err(refusal) => Err((refusal.number, refusal.line)),
        }
    }

    #[test]
    fn sheets_of_01_have_their_answers() {
        let lines = "h=+YZIZY\nh=+IXZZX\nh=+ZZXIX\nh=+ZIZYY\n";
        for text in &samples::starred()[..8] {
            assert_eq!(canonical(text), Ok(lines.to_string()));
        }
        assert_eq!(canonical(I), Err((7, 5)));
        assert_eq!(canonical(&I.replace("+YYII", "-YYII")), Err((8, 5)));
        assert_eq!(canonical(CLASH), Err((6, 4)));
        assert_eq!(canonical(K), Ok("h=+ZZ\n".to_string()));
    }

    #[test]
    fn published_codes_pass() {
        let tables = [NINE_OTHER_ROWS, EIGHT, SEVEN_OTHER_ROWS, FOUR].map(str::to_string);
        for text in tables.into_iter().chain(samples::repetitions()) {
            assert!(canonical(&text).is_ok(), "{text}");
        }
        // the canonical generators of a code with rows of X and rows of Z: the X rows reduced, and then the Z rows
        let seven = "h=+XIXIXIX\nh=+IXXIIXX\nh=+IIIXXXX\nh=+ZIZIZIZ\nh=+IZZIIZZ\nh=+IIIZZZZ\n";
        assert_eq!(canonical(L), Ok(seven.to_string()));
        let nine = [
            "XXXIIIXXX",
            "IIIXXXXXX",
            "ZIZIIIIII",
            "IZZIIIIII",
            "IIIZIZIII",
            "IIIIZZIII",
            "IIIIIIZIZ",
            "IIIIIIIZZ",
        ];
        assert_eq!(
            canonical(NINE),
            Ok(nine.map(|letters| format!("h=+{letters}\n")).concat())
        );
    }

    #[test]
    fn six_goes_over_all_rows_before_7_and_8() {
        assert_eq!(checked(&["+II"]), Err((8, 3)));
        assert_eq!(checked(&["-II"]), Err((7, 3)));
        assert_eq!(checked(&["+ZII", "+ZII", "+XII"]), Err((6, 5)));
        assert_eq!(checked(&["-III", "+XII", "+ZII"]), Err((6, 5)));
        assert_eq!(checked(&["+ZII", "-ZII", "+ZII"]), Err((7, 4)));
        assert_eq!(checked(&["+ZII", "+ZII", "-ZII"]), Err((8, 4)));
        assert_eq!(checked(&["+XX", "+ZZ"]), Ok(()));
    }

    #[test]
    fn a_member_has_the_sign_of_its_product() {
        assert_eq!(
            member(&rows(&["+XX", "+ZZ"]), &row("+YY").letters),
            Some(row("-YY"))
        );
        assert_eq!(member(&rows(&["+XX", "+ZZ"]), &row("+YX").letters), None);
    }

    /// Rows that commute, some of which depend on others.
    fn some_rows(random: &mut Random, n: usize) -> Vec<Row> {
        let rows = lists::commuting(random, n);
        match random.below(4) {
            0 => lists::with_dependence(random, &rows, false),
            1 => lists::with_dependence(random, &rows, true),
            _ => rows,
        }
    }

    #[test]
    fn bits_select_what_going_through_all_selections_finds() {
        let mut random = Random(3);
        let mut found = [0; 2];
        for n in (2..=FEW).flat_map(|n| [n; 20]) {
            let all = some_rows(&mut random, n);
            // up to the first dependence: behind one that gives -I a member has both signs
            let end = (0..n).find(|&i| member_of_all(&all[..i], &all[i].letters).is_some());
            let end = end.map_or(n, |i| i + 1);
            for i in 0..end {
                let letters = &all[i].letters;
                assert_eq!(
                    member_of_all(&all[..i], letters),
                    member_by_bits(&all[..i], letters)
                );
            }
            let rows = &all[..end - 1];
            for _ in 0..4 {
                let inside = lists::some_product(&mut random, n, rows).row();
                let letters = &inside.as_ref().unwrap().letters;
                assert_eq!(member_of_all(rows, letters), inside);
                assert_eq!(member_by_bits(rows, letters), inside);
                let any = samples::any_row(&mut random, n).letters;
                let member = member_of_all(rows, &any);
                assert_eq!(member_by_bits(rows, &any), member);
                found[usize::from(member.is_some())] += 1;
            }
        }
        assert!(found.iter().all(|&count| count > 10), "{found:?}");
    }

    #[test]
    fn dependences_and_clashes_are_found_where_they_are_made() {
        let mut random = Random(4);
        for n in 2..=24 {
            let rows = lists::commuting(&mut random, n);
            assert_eq!(check(&rows), Ok(()));
            for minus in [false, true] {
                let dependent = lists::with_dependence(&mut random, &rows, minus);
                let at = (0..n).find(|&i| dependent[i] != rows[i]);
                let number = if minus { 7 } else { 8 };
                assert_eq!(check(&dependent), Err(refusal(number, at.unwrap())));
                let Some(clashing) = lists::with_clash(&mut random, &dependent) else {
                    continue;
                };
                let at = (0..n).find(|&i| clashing[i] != dependent[i]);
                assert_eq!(check(&clashing), Err(refusal(6, at.unwrap())));
            }
        }
    }

    /// Of the members with their first one in a column, the one with no one in the other such columns.
    fn canonical_of_all(rows: &[Row]) -> Vec<Row> {
        let n = rows[0].letters.len();
        let first_one = |row: &Row| (0..2 * n).find(|&c| has(&row.letters, c));
        let members = all_products(rows, n);
        let columns: std::collections::BTreeSet<usize> =
            members.iter().filter_map(first_one).collect();
        let alone = |row: &Row, column: usize| {
            let others = columns.iter().filter(|&&other| other != column);
            first_one(row) == Some(column) && others.into_iter().all(|&c| !has(&row.letters, c))
        };
        let row = |&column: &usize| members.iter().find(|row| alone(row, column)).cloned();
        columns.iter().filter_map(row).collect()
    }

    #[test]
    fn canonical_generators_are_the_members_in_that_form() {
        let mut random = Random(5);
        for n in (2..=FEW).flat_map(|n| [n; 10]) {
            let rows = lists::commuting(&mut random, n);
            let rows = &rows[..1 + random.index(n)];
            let canonical = canonical_generators(rows);
            assert_eq!(canonical, canonical_of_all(rows));
            assert_eq!(canonical.len(), rows.len());
        }
        assert_eq!(
            canonical_generators(&rows(&["+XX", "+ZZ"])),
            rows(&["+XX", "+ZZ"])
        );
        assert_eq!(
            canonical_generators(&rows(&["+YY", "+ZZ"])),
            rows(&["-XX", "+ZZ"])
        );
    }

    #[test]
    fn canonical_generators_of_other_generators_are_the_same() {
        let mut random = Random(6);
        for n in 2..=24 {
            let rows = lists::commuting(&mut random, n);
            let mut others = rows.clone();
            others.reverse();
            for i in 1..n {
                others[i] = commuting_product(&others[i], &others[random.index(i)]);
            }
            assert_eq!(canonical_generators(&others), canonical_generators(&rows));
            others.push(rows[0].clone());
            assert_eq!(check(&others), Err(refusal(8, n)));
        }
    }

    #[test]
    fn the_writer_of_canonical_generators_fills_the_front_or_nothing() {
        let record = |text: &str| crate::record::Record::of(&read_alone(text.as_bytes()).unwrap());
        let of_no_line = |number| Err(Refusal::new(number, 0));
        let mut out = [b'.'; 39];
        assert_eq!(record(A).write_canonical(&mut out[..35]), of_no_line(17));
        assert_eq!(record(I).write_canonical(&mut out[..1]), Err(refusal(7, 2)));
        let mut outside = record(I);
        outside.n = 25;
        assert_eq!(outside.write_canonical(&mut out[..1]), of_no_line(15));
        assert_eq!(out, [b'.'; 39]);
        assert_eq!(record(A).write_canonical(&mut out), Ok(36));
        assert_eq!(&out, b"h=+YZIZY\nh=+IXZZX\nh=+ZZXIX\nh=+ZIZYY\n...");
    }
}
