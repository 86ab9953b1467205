//! Products of rows, letter by letter.

use crate::sheet::{letters_text, Letter, Row};

/// i to a power, and a letter for each qubit.
#[derive(Clone, PartialEq, Eq, Debug)]
pub struct Product {
    pub power: u32,
    pub letters: Vec<Letter>,
}

impl Product {
    /// The product with no factor.
    pub fn one(n: usize) -> Product {
        Product {
            power: 0,
            letters: vec![Letter::I; n],
        }
    }

    pub fn times(&self, row: &Row) -> Product {
        let mut power = self.power + if row.minus { 2 } else { 0 };
        let mut letters = Vec::new();
        for (&left, &right) in self.letters.iter().zip(&row.letters) {
            let (more, letter) = letter_product(left, right);
            power += more;
            letters.push(letter);
        }
        power %= 4;
        Product { power, letters }
    }

    /// The row that this is, or none with a power of i that is no sign.
    pub fn row(self) -> Option<Row> {
        let minus = match self.power {
            0 => false,
            2 => true,
            _ => return None,
        };
        let letters = self.letters;
        Some(Row { minus, letters })
    }

    /// The row with these letters and sign +.
    pub fn plus_row(&self) -> Row {
        let (minus, letters) = (false, self.letters.clone());
        Row { minus, letters }
    }

    /// The power of i, then the letters.
    pub fn text(&self) -> Vec<u8> {
        let power = ["+", "+i", "-", "-i"][self.power as usize];
        [power.as_bytes(), &letters_text(&self.letters)].concat()
    }
}

/// The product of a list of rows, in its order.
pub fn product<'a>(n: usize, rows: impl IntoIterator<Item = &'a Row>) -> Product {
    let rows = rows.into_iter();
    rows.fold(Product::one(n), |product, row| product.times(row))
}

/// The product of two rows that commute, which is a row again.
pub fn commuting_product(left: &Row, right: &Row) -> Row {
    let product = product(left.letters.len(), [left, right]);
    product.row().expect("the two rows commute")
}

/// Two rows commute where both orders give the same.
pub fn commute(left: &Row, right: &Row) -> bool {
    let n = left.letters.len();
    product(n, [left, right]) == product(n, [right, left])
}

/// The sixteen products of two letters: a power of i, and a letter.
fn letter_product(left: Letter, right: Letter) -> (u32, Letter) {
    use Letter::{I, X, Y, Z};
    match (left, right) {
        (I, letter) | (letter, I) => (0, letter),
        (X, X) | (Y, Y) | (Z, Z) => (0, I),
        (X, Y) => (1, Z),
        (Y, Z) => (1, X),
        (Z, X) => (1, Y),
        (Y, X) => (3, Z),
        (Z, Y) => (3, X),
        (X, Z) => (3, Y),
    }
}

#[cfg(test)]
mod tests {
    use super::*;
    use crate::record::Pauli;
    use crate::samples::row;

    #[test]
    fn xx_times_zz_is_minus_yy() {
        let (xx, zz) = (row("+XX"), row("+ZZ"));
        assert!(commute(&xx, &zz));
        assert_eq!(commuting_product(&xx, &zz), row("-YY"));
        assert_eq!(product(2, [&xx, &zz, &row("-YY")]), Product::one(2));
        assert!(!commute(&row("+XII"), &row("+ZII")));
        assert_eq!(product(1, [&row("+X"), &row("-Z")]).row(), None);
    }

    /// Two by two, over the Gaussian integers: a real and an imaginary part.
    type Matrix = [[(i32, i32); 2]; 2];

    fn matrix(letter: Letter) -> Matrix {
        let (zero, one, minus_one) = ((0, 0), (1, 0), (-1, 0));
        let (i, minus_i) = ((0, 1), (0, -1));
        match letter {
            Letter::I => [[one, zero], [zero, one]],
            Letter::X => [[zero, one], [one, zero]],
            Letter::Y => [[zero, minus_i], [i, zero]],
            Letter::Z => [[one, zero], [zero, minus_one]],
        }
    }

    fn times(v: (i32, i32), w: (i32, i32)) -> (i32, i32) {
        (v.0 * w.0 - v.1 * w.1, v.0 * w.1 + v.1 * w.0)
    }

    fn matrix_product(left: Matrix, right: Matrix) -> Matrix {
        let entry = |row: usize, column: usize| {
            let first = times(left[row][0], right[0][column]);
            let second = times(left[row][1], right[1][column]);
            (first.0 + second.0, first.1 + second.1)
        };
        [0, 1].map(|row| [0, 1].map(|column| entry(row, column)))
    }

    #[test]
    fn letters_multiply_as_their_matrices_do() {
        let powers = [(1, 0), (0, 1), (-1, 0), (0, -1)];
        for left in Letter::ALL {
            for right in Letter::ALL {
                let (power, letter) = letter_product(left, right);
                let scaled =
                    matrix(letter).map(|row| row.map(|v| times(powers[power as usize], v)));
                assert_eq!(matrix_product(matrix(left), matrix(right)), scaled);
            }
        }
    }

    /// Phases p + p' + 2(b·a') modulo 4 and masks a + a', b + b' bit by bit, on one qubit.
    #[test]
    fn letters_multiply_by_the_product_rule() {
        for left in Letter::ALL {
            for right in Letter::ALL {
                let pauli = |minus, letter| {
                    let letters = vec![letter];
                    Pauli::of(&Row { minus, letters })
                };
                let (l, r) = (pauli(false, left), pauli(false, right));
                let (power, letter) = letter_product(left, right);
                let plus = pauli(false, letter);
                assert_eq!((l.a ^ r.a, l.b ^ r.b), (plus.a, plus.b));
                assert_eq!((l.p + r.p + 2 * (l.b & r.a)) % 4, (plus.p + power) % 4);
            }
        }
    }
}
