//! Parity checks of classical codes, and the rows that they make.

use crate::sheet::{Letter, Row};

/// Rows of ones and zeros.
#[derive(Clone, PartialEq, Eq, Debug)]
pub struct Matrix(pub Vec<Vec<bool>>);

impl Matrix {
    fn of(rows: usize, columns: usize, entry: impl Fn(usize, usize) -> bool) -> Matrix {
        let row = |i: usize| (0..columns).map(|j| entry(i, j)).collect();
        Matrix((0..rows).map(row).collect())
    }

    pub fn identity(n: usize) -> Matrix {
        Matrix::of(n, n, |i, j| i == j)
    }

    pub fn rows(&self) -> usize {
        self.0.len()
    }

    pub fn columns(&self) -> usize {
        self.0[0].len()
    }

    pub fn transposed(&self) -> Matrix {
        Matrix::of(self.columns(), self.rows(), |i, j| self.0[j][i])
    }

    /// The tensor product.
    pub fn tensor(&self, other: &Matrix) -> Matrix {
        let (rows, columns) = (other.rows(), other.columns());
        let entry =
            |i: usize, j: usize| self.0[i / rows][j / columns] && other.0[i % rows][j % columns];
        Matrix::of(self.rows() * rows, self.columns() * columns, entry)
    }

    pub fn beside(&self, other: &Matrix) -> Matrix {
        let rows = self.0.iter().zip(&other.0);
        Matrix(
            rows.map(|(left, right)| [&left[..], right].concat())
                .collect(),
        )
    }

    /// Signed rows with a letter at the ones.
    fn with_letter(&self, letter: Letter) -> Vec<Row> {
        let row = |ones: &Vec<bool>| {
            let letter = |&one: &bool| if one { letter } else { Letter::I };
            let (minus, letters) = (false, ones.iter().map(letter).collect());
            Row { minus, letters }
        };
        self.0.iter().map(row).collect()
    }
}

/// X at the ones of the first, then Z at the ones of the second.
pub fn css(xs: &Matrix, zs: &Matrix) -> Vec<Row> {
    let mut rows = xs.with_letter(Letter::X);
    rows.extend(zs.with_letter(Letter::Z));
    rows
}

/// The columns are the numbers from 1 on, with the highest bit first.
pub fn hamming(bits: usize) -> Matrix {
    let columns = (1 << bits) - 1;
    Matrix::of(bits, columns, |i, j| (j + 1) >> (bits - 1 - i) & 1 == 1)
}

/// All bits together are even.
pub fn even(n: usize) -> Matrix {
    Matrix::of(1, n, |_, _| true)
}

/// Neighbours are equal: the repetition code.
pub fn neighbours(n: usize) -> Matrix {
    Matrix::of(n - 1, n, |i, j| j == i || j == i + 1)
}

/// Words of even weight that generate the dual of the Golay code: shifts of 1 + x times its polynomial 1 + x + x^5 + x^6
/// + x^7 + x^9 + x^11.
pub fn golay() -> Matrix {
    const ONES: [usize; 8] = [0, 2, 5, 8, 9, 10, 11, 12];
    Matrix::of(11, 23, |i, j| j >= i && ONES.contains(&(j - i)))
}

/// The X and Z rows of the hypergraph product of two codes.
pub fn hypergraph(first: &Matrix, second: &Matrix) -> Vec<Row> {
    let identity = Matrix::identity;
    let xs = first
        .tensor(&identity(second.columns()))
        .beside(&identity(first.rows()).tensor(&second.transposed()));
    let zs = identity(first.columns())
        .tensor(second)
        .beside(&first.transposed().tensor(&identity(second.rows())));
    css(&xs, &zs)
}

/// X rows on neighbouring blocks, and Z rows on neighbours in a block.
pub fn blocks(count: usize, size: usize) -> Vec<Row> {
    let xs = neighbours(count).tensor(&even(size));
    let zs = Matrix::identity(count).tensor(&neighbours(size));
    css(&xs, &zs)
}

#[cfg(test)]
mod tests {
    use super::*;
    use crate::samples::{L, NINE};
    use crate::sheet::read_alone;

    fn generators(text: &str) -> Vec<Row> {
        read_alone(text.as_bytes()).unwrap().generators
    }

    #[test]
    fn matrices_make_the_rows_of_known_sheets() {
        assert_eq!(css(&hamming(3), &hamming(3)), generators(L));
        let mut nine = generators(NINE);
        nine.rotate_right(2);
        assert_eq!(blocks(3, 3), nine);
    }
}
