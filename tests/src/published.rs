//! Codes from the literature, with what is printed of each: qubits, pairs and distance. Where no logicals are printed
//! they are made. d and w are computed, and d is held to what is printed.

use crate::classical::{blocks, css, even, golay, hamming, hypergraph, neighbours, Matrix};
use crate::codes::{claiming, completed, single};
use crate::logical_errors;
use crate::samples::{self, A, EIGHT, FOUR, L, NINE, NINE_OTHER_ROWS, SEVEN_OTHER_ROWS};
use crate::sheet::{self, Letter, Row, Sheet};

/// All codes that a sheet can have.
pub fn all() -> Vec<Sheet> {
    let mut codes = stabilizer_codes();
    codes.extend(classical_codes());
    codes.extend(hamming_bound_codes());
    codes.extend(hypergraph_products());
    codes.extend(shor_codes());
    codes.extend(cyclic_codes());
    codes
}

/// The sheet with its distance and its earliest logical error for w. n, k and the distance are as printed.
fn published(name: impl AsRef<str>, printed: [usize; 3], sheet: Sheet) -> Sheet {
    let earliest = logical_errors::earliest(&sheet, 7).expect("a distance of at most 7");
    let sheet = claiming(&sheet, earliest);
    let computed = [sheet.n, sheet.xs.len(), sheet.d];
    assert_eq!(computed, printed, "{}", name.as_ref());
    sheet
}

fn read(text: &str) -> Sheet {
    sheet::read_alone(text.as_bytes()).expect("a sheet")
}

fn row(letters: &str) -> Row {
    sheet::row(format!("+{letters}").as_bytes(), letters.len()).expect("letters")
}

fn rows(letters: &[impl AsRef<str>]) -> Vec<Row> {
    letters
        .iter()
        .map(|letters| row(letters.as_ref()))
        .collect()
}

/// The tables of Gottesman's thesis, chapter 3, and the five-qubit code with a sixth qubit that has X for a generator.
fn stabilizer_codes() -> Vec<Sheet> {
    let thirteen = [
        "XXXXXXXXIIIII",
        "ZZZZZZZZIIIII",
        "IIIIIIIIXZZXI",
        "IXIXYZYZIXZZX",
        "IXZYIXZYXIXZZ",
        "IYXZXZIYZXIXZ",
    ];
    let six = ["XZZXII", "IXZZXI", "XIXZZI", "ZXIXZI", "IIIIIX"];
    vec![
        published("table 3.1", [9, 1, 3], read(NINE_OTHER_ROWS)),
        published("table 3.2", [5, 1, 3], read(A)),
        published("table 3.3", [8, 3, 3], read(EIGHT)),
        published("table 3.4", [7, 1, 3], read(SEVEN_OTHER_ROWS)),
        published("table 3.5, put right", [4, 2, 2], read(&four_put_right())),
        published("table 3.6", [13, 7, 3], completed(rows(&thirteen))),
        published("five and a qubit", [6, 1, 3], completed(rows(&six))),
    ]
}

/// Table 3.5 as it would be if the first X row were the five-qubit code's times its second generator, so that it ends
/// with I before the last qubit goes.
pub fn four_put_right() -> String {
    FOUR.replace("x=+XXXX", "x=+XIYY")
}

/// Table 3.7: the five-qubit code in itself. It has one qubit too many for a sheet.
pub fn twenty_five() -> String {
    let generators = ["XZZXI", "IXZZX", "XIXZZ", "ZXIXZ"];
    let inner = (0..5).flat_map(|block| {
        generators.map(|letters| "I".repeat(5 * block) + letters + &"I".repeat(20 - 5 * block))
    });
    let outer = generators.map(five_times);
    let lines: String = inner
        .chain(outer)
        .map(|row| format!("g=+{row}\n"))
        .collect();
    let (xs, zs) = ("X".repeat(25), "Z".repeat(25));
    format!("n=25\nd=7\n{lines}x=+{xs}\nz=+{zs}\nw={xs}\n")
}

fn five_times(letters: &str) -> String {
    let letters = letters.chars().map(String::from);
    letters.map(|letter| letter.repeat(5)).collect()
}

/// Hamming codes, codes of even weight with the words of equal bits, and the Golay code.
fn classical_codes() -> Vec<Sheet> {
    let twice = |checks: Matrix| completed(css(&checks, &checks));
    let even_twice = |n| published(format!("even weight {n}"), [n, n - 2, 2], twice(even(n)));
    let equal = completed(css(&even(2), &Matrix(Vec::new())));
    let mut codes = vec![
        published("Hamming, as printed", [7, 1, 3], read(L)),
        published("Hamming", [15, 7, 3], twice(hamming(4))),
        published("00 and 11", [2, 1, 1], equal),
        published("Golay", [23, 1, 7], twice(golay())),
    ];
    codes.extend([4, 6, 12, 24].map(even_twice));
    codes
}

/// The Golay code and a qubit that has X for a generator: as many qubits as a sheet may have, and a distance as long.
pub fn golay_and_a_qubit() -> Sheet {
    let with_qubit = |mut row: Row| {
        row.letters.push(Letter::I);
        row
    };
    let mut rows: Vec<Row> = css(&golay(), &golay())
        .into_iter()
        .map(with_qubit)
        .collect();
    rows.push(single(24, 23, Letter::X));
    published("Golay and a qubit", [24, 1, 7], completed(rows))
}

/// Gottesman's codes that saturate the quantum Hamming bound, with the table of the first as it is printed.
fn hamming_bound_codes() -> Vec<Sheet> {
    let table = ["XXXXXXXX", "ZZZZZZZZ", "XIXIZYZY", "XIYZXIYZ", "XZIYIYXZ"];
    vec![
        published("table II", [8, 3, 3], completed(rows(&table))),
        published("n = 2^3", [8, 3, 3], completed(hamming_bound(3))),
        published("n = 2^4", [16, 10, 3], completed(hamming_bound(4))),
    ]
}

/// X everywhere; Z everywhere; and for each of j bits the row that has on qubit i the letter that anticommutes with X_i
/// where the number of Z_i, and with Z_i where the number of X_i, has a one there. X_i has the number i - 1; Z_i half of
/// it, and all bits of that are turned over for odd i, or, where j is odd, for even i in the second half.
fn hamming_bound(j: usize) -> Vec<Row> {
    let n = 1 << j;
    let row = |bit: usize| {
        let letter = |i: usize| {
            let of_x = (i - 1) >> bit & 1 == 1;
            let turned = (i % 2 == 1) != (j % 2 == 1 && i > n / 2);
            let of_z = (((i - 1) / 2) >> bit & 1 == 1) != turned;
            match (of_x, of_z) {
                (false, false) => Letter::I,
                (false, true) => Letter::X,
                (true, false) => Letter::Z,
                (true, true) => Letter::Y,
            }
        };
        let letters = (1..=n).map(letter).collect();
        Row {
            minus: false,
            letters,
        }
    };
    let mut rows = rows(&["X".repeat(n), "Z".repeat(n)]);
    rows.extend((0..j).rev().map(row));
    rows
}

/// Products of two classical codes: repetition codes, and one with the Hamming code.
fn hypergraph_products() -> Vec<Sheet> {
    let product = |first: Matrix, second: Matrix, printed| {
        let name = format!("product of {} and {}", first.columns(), second.columns());
        published(name, printed, completed(hypergraph(&first, &second)))
    };
    vec![
        product(neighbours(2), neighbours(2), [5, 1, 2]),
        product(neighbours(2), neighbours(3), [8, 1, 2]),
        product(neighbours(3), neighbours(3), [13, 1, 3]),
        product(neighbours(4), neighbours(3), [18, 1, 3]),
        product(neighbours(3), neighbours(5), [23, 1, 3]),
        product(neighbours(2), hamming(3), [17, 4, 2]),
    ]
}

/// The nine-qubit code and others of several blocks, whose groups have many light members; and repetition codes.
fn shor_codes() -> Vec<Sheet> {
    let in_blocks = |[count, size]: [usize; 2]| {
        let name = format!("{count} blocks of {size}");
        let printed = [count * size, 1, count.min(size)];
        published(name, printed, completed(blocks(count, size)))
    };
    let repetition = |n| published("repetition", [n, 1, 1], read(&samples::repetition(n)));
    let mut codes = vec![published("nine qubits", [9, 1, 3], read(NINE))];
    codes.extend([[2, 2], [3, 3], [3, 5], [4, 4], [2, 12], [6, 4], [5, 4]].map(in_blocks));
    codes.extend([2, 3, 24].map(repetition));
    codes
}

/// Shifts of XZZX, as in the five-qubit code, with the places of its letters further apart.
fn cyclic_codes() -> Vec<Sheet> {
    let code = |n: usize, step: usize, distance| {
        let shifted = |by: usize| {
            let letter = |qubit: usize| match (qubit + n - by) % n {
                0 => Letter::X,
                1 => Letter::Z,
                place if place == step => Letter::Z,
                place if place == step + 1 => Letter::X,
                _ => Letter::I,
            };
            let letters = (0..n).map(letter).collect();
            Row {
                minus: false,
                letters,
            }
        };
        let rows = (0..n - 1).map(shifted).collect();
        published(format!("cyclic {n}"), [n, 1, distance], completed(rows))
    };
    vec![code(5, 2, 3), code(13, 5, 5), code(17, 4, 5)]
}

#[cfg(test)]
mod tests {
    use super::*;
    use crate::admission::admit;

    #[test]
    fn codes_are_admitted() {
        for sheet in all() {
            assert_eq!(admit(&sheet.text()), Ok(sheet));
        }
    }

    #[test]
    fn tables_as_printed_that_are_refused() {
        let refusal = |text: &str| {
            let refusal = admit(text.as_bytes()).unwrap_err().refusal;
            (refusal.number, refusal.line)
        };
        assert_eq!(refusal(FOUR), (10, 6));
        assert!(admit(four_put_right().as_bytes()).is_ok());
        assert_eq!(refusal(&twenty_five()), (3, 1));
    }

    #[test]
    fn the_printed_table_is_the_first_of_its_family() {
        let codes = hamming_bound_codes();
        assert_eq!(codes[0].generators, codes[1].generators);
    }
}
