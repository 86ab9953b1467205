//! Strings of letters: all of them in their order, and which of them commute.

use crate::sheet::{weight, Letter};
use std::cell::RefCell;
use std::sync::OnceLock;

/// The most qubits of which all strings are sorted.
pub const FEW_QUBITS: usize = 6;

/// How many strings of n letters have at most this weight.
pub fn string_count(n: usize, most: usize) -> u64 {
    let mut of_weight = 1;
    let mut count = 1;
    for v in 1..=most.min(n) {
        of_weight = of_weight * 3 * (n - v + 1) as u64 / v as u64;
        count += of_weight;
    }
    count
}

/// All strings of n letters: the lighter ones first, and those of one weight by their letters.
pub fn sorted_strings(n: usize) -> &'static [Vec<Letter>] {
    static SORTED: [OnceLock<Vec<Vec<Letter>>>; FEW_QUBITS + 1] =
        [const { OnceLock::new() }; FEW_QUBITS + 1];
    SORTED[n].get_or_init(|| {
        let mut strings = all_strings(n);
        strings.sort_by_key(|letters| (weight(letters), letters.clone()));
        strings
    })
}

fn all_strings(n: usize) -> Vec<Vec<Letter>> {
    if n == 0 {
        return vec![Vec::new()];
    }
    let longer = |letters: Vec<Letter>| Letter::ALL.map(|last| [&letters[..], &[last]].concat());
    all_strings(n - 1).into_iter().flat_map(longer).collect()
}

/// Goes through the strings that are as they are up to a place and have so many letters other than I from there on.
/// Stops where the test holds; else there are only letters I from that place on afterwards.
pub fn first_of_weight(
    letters: &mut [Letter],
    at: usize,
    weight: usize,
    test: &impl Fn(&[Letter]) -> bool,
) -> bool {
    if weight == 0 {
        return test(letters);
    }
    for letter in Letter::ALL {
        let ahead = weight - usize::from(letter != Letter::I);
        letters[at] = letter;
        if ahead < letters.len() - at && first_of_weight(letters, at + 1, ahead, test) {
            return true;
        }
    }
    letters[at] = Letter::I;
    false
}

/// All strings of n letters and this weight, in their order.
pub fn strings_of_weight(n: usize, weight: usize) -> Vec<Vec<Letter>> {
    let strings = RefCell::new(Vec::new());
    let see = |letters: &[Letter]| {
        strings.borrow_mut().push(letters.to_vec());
        false
    };
    first_of_weight(&mut vec![Letter::I; n], 0, weight, &see);
    strings.into_inner()
}

/// Strings commute where the qubits are even in number at which both have a letter other than I, and not the same.
pub fn letters_commute(left: &[Letter], right: &[Letter]) -> bool {
    let differ = |&(&l, &r): &(&Letter, &Letter)| l != Letter::I && r != Letter::I && l != r;
    left.iter().zip(right).filter(differ).count() % 2 == 0
}

#[cfg(test)]
mod tests {
    use super::*;
    use crate::random::Random;
    use crate::sheet::letters_text;

    #[test]
    fn strings_come_in_their_order() {
        let light = sorted_strings(3).iter().take(11).cloned();
        let light: Vec<Vec<u8>> = light.map(|letters| letters_text(&letters)).collect();
        let order = b"III IIX IIY IIZ IXI IYI IZI XII YII ZII IXX";
        assert_eq!(light.join(&b' '), order);
        for n in 0..=FEW_QUBITS {
            let strings = (0..=n).flat_map(|v| strings_of_weight(n, v));
            assert_eq!(strings.collect::<Vec<_>>(), sorted_strings(n));
            assert_eq!(string_count(n, n), 4_u64.pow(n as u32));
        }
        assert_eq!(string_count(24, 3), 57_205);
    }

    #[test]
    fn letters_commute_as_rows_do() {
        let mut random = Random(11);
        for n in 1..=24 {
            for _ in 0..20 {
                let [left, right] = [(); 2].map(|()| crate::samples::any_row(&mut random, n));
                let by_products = crate::product::commute(&left, &right);
                assert_eq!(letters_commute(&left.letters, &right.letters), by_products);
            }
        }
    }
}
