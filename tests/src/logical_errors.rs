//! The earliest logical error, found in three ways: by sorting all strings, by going through the strings of each
//! weight, and by going through all products of generators and logicals. The cheapest for the code is taken.

use crate::group;
use crate::record::Pauli;
use crate::sheet::{weight, Letter, Row, Sheet};
use crate::strings::{first_of_weight, letters_commute, sorted_strings, string_count, FEW_QUBITS};
use std::collections::HashSet;
use std::sync::OnceLock;

/// The most generators of which all products are listed.
const FEW_GENERATORS: usize = 12;

/// To test a string takes as long as so many products.
const STRING_COST: u64 = 16;

/// The earliest logical error, where there is one of this weight or less. The sheet passes 6 to 10.
pub fn earliest(sheet: &Sheet, most: usize) -> Option<Vec<Letter>> {
    if sheet.n <= FEW_QUBITS {
        return by_sorting(sheet, most);
    }
    // strings as long as they cost less than all products
    let products = 1 << (sheet.n + sheet.xs.len());
    let is_cheap = |&v: &usize| string_count(sheet.n, v) * STRING_COST < products;
    let cheap = (0..=most).rev().find(is_cheap).unwrap_or(0);
    by_strings(sheet, cheap).or_else(|| match cheap < most {
        true => by_products(sheet, most),
        false => None,
    })
}

fn by_sorting(sheet: &Sheet, most: usize) -> Option<Vec<Letter>> {
    let code = Undetected::of(&sheet.generators);
    let strings = sorted_strings(sheet.n).iter();
    let mut light = strings.take_while(|letters| weight(letters) <= most);
    light.find(|letters| code.has_logical(letters)).cloned()
}

fn by_strings(sheet: &Sheet, most: usize) -> Option<Vec<Letter>> {
    let code = Undetected::of(&sheet.generators);
    let mut letters = vec![Letter::I; sheet.n];
    let of_weight = |v| first_of_weight(&mut letters, 0, v, &|letters| code.has_logical(letters));
    let found = (0..=most.min(sheet.n)).any(of_weight);
    found.then_some(letters)
}

/// Rows that commute, and what commutes with all of them.
pub struct Undetected<'a> {
    rows: &'a [Row],
    /// the letters of the members of their group, where they are few
    members: OnceLock<HashSet<Vec<Letter>>>,
}

impl Undetected<'_> {
    pub fn of(rows: &[Row]) -> Undetected<'_> {
        let members = OnceLock::new();
        Undetected { rows, members }
    }

    /// Whether the letters are those of a logical error.
    pub fn has_logical(&self, letters: &[Letter]) -> bool {
        let mut rows = self.rows.iter();
        rows.all(|row| letters_commute(&row.letters, letters)) && !self.is_member(letters)
    }

    /// Whether the letters are those of a member of the group.
    pub fn is_member(&self, letters: &[Letter]) -> bool {
        if self.rows.len() > FEW_GENERATORS {
            return group::member(self.rows, letters).is_some();
        }
        let list = || {
            let members = group::all_products(self.rows, letters.len());
            members.into_iter().map(|row| row.letters).collect()
        };
        self.members.get_or_init(list).contains(letters)
    }
}

fn by_products(sheet: &Sheet, most: usize) -> Option<Vec<Letter>> {
    let mut found: Option<(usize, Vec<Letter>)> = None;
    for_each_product(sheet, |a, b| {
        let weight = (a | b).count_ones() as usize;
        let best = found.as_ref().map_or(most, |(best, _)| *best);
        if weight > best {
            return;
        }
        let candidate = (weight, Pauli { p: 0, a, b }.letters(sheet.n));
        if found.as_ref().is_none_or(|found| candidate < *found) {
            found = Some(candidate);
        }
    });
    found.map(|(_, letters)| letters)
}

/// The masks of every logical error: generators and logicals together generate all that commutes with the generators,
/// and what is in the group is a product of generators alone.
pub fn for_each_product(sheet: &Sheet, mut visit: impl FnMut(u32, u32)) {
    let r = sheet.generators.len();
    let rows = sheet.generators.iter().chain(&sheet.xs).chain(&sheet.zs);
    let masks: Vec<Pauli> = rows.map(Pauli::of).collect();
    let (mut a, mut b, mut selected) = (0, 0, 0_u64);
    // selections in an order in which each differs from the one before by one row
    for step in 1..1_u64 << masks.len() {
        let row = step.trailing_zeros() as usize;
        selected ^= 1 << row;
        a ^= masks[row].a;
        b ^= masks[row].b;
        if selected >> r != 0 {
            visit(a, b);
        }
    }
}

#[cfg(test)]
mod tests {
    use super::*;
    use crate::codes::any_code;
    use crate::random::Random;
    use crate::samples::row;

    #[test]
    fn three_ways_find_the_same() {
        let mut random = Random(12);
        let mut weights = [0; 5];
        for n in (2..=11).flat_map(|n| [n; 12]) {
            let r = n - 1 - random.index(n - 1) / 3;
            let sheet = any_code(&mut random, n, r);
            for most in 1..=4 {
                let found = by_strings(&sheet, most);
                assert_eq!(by_products(&sheet, most), found);
                if n <= FEW_QUBITS {
                    assert_eq!(by_sorting(&sheet, most), found);
                }
                assert_eq!(earliest(&sheet, most), found);
                weights[found.map_or(0, |letters| weight(&letters))] += 1;
            }
        }
        assert!(weights[..4].iter().all(|&count| count > 4), "{weights:?}");
    }

    #[test]
    fn what_is_in_the_group_is_no_logical_error() {
        let rows = ["+ZZI", "+IZZ"].map(row);
        let code = Undetected::of(&rows);
        let is_logical = |letters: &str| code.has_logical(&row(&format!("+{letters}")).letters);
        assert!(is_logical("ZII") && is_logical("ZZZ") && is_logical("XXX") && is_logical("YYX"));
        assert!(!is_logical("III") && !is_logical("ZIZ") && !is_logical("XII"));
    }
}
