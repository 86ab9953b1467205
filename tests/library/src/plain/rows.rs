//! Rows in reduced echelon form.

use reinoften::Pauli;

pub fn commute(left: &Pauli, right: &Pauli) -> bool {
    ((left.a & right.b) ^ (left.b & right.a)).count_ones() % 2 != 1
}

/// A phase and both masks in one word, the X part below the Z part, so that the first one is the lowest.
#[derive(Clone, Copy)]
struct Row {
    p: u32,
    bits: u64,
}

impl Row {
    fn of(pauli: &Pauli) -> Row {
        Row {
            p: pauli.p,
            bits: u64::from(pauli.a) | u64::from(pauli.b) << 32,
        }
    }

    fn a(self) -> u32 {
        self.bits as u32
    }

    fn b(self) -> u32 {
        (self.bits >> 32) as u32
    }

    /// The lowest one alone.
    fn first_one(self) -> u64 {
        self.bits & self.bits.wrapping_neg()
    }

    /// Only the last bit of the count matters, and it is cheaper.
    fn times(self, other: Row) -> Row {
        let turned = (self.b() & other.a()).count_ones() % 2;
        Row {
            p: self.p.wrapping_add(other.p).wrapping_add(2 * turned) % 4,
            bits: self.bits ^ other.bits,
        }
    }

    fn cleared_by(self, other: Row) -> Row {
        match self.bits & other.first_one() {
            0 => self,
            _ => self.times(other),
        }
    }
}

/// In the order of their first ones.
pub struct ReducedRows(Vec<Row>);

impl ReducedRows {
    /// None yet, with room for so many.
    pub fn with_room(count: usize) -> ReducedRows {
        ReducedRows(Vec::with_capacity(count))
    }

    fn left_of(&self, pauli: &Pauli) -> Row {
        let row = Row::of(pauli);
        self.0.iter().fold(row, |left, &row| left.cleared_by(row))
    }

    pub fn contains(&self, pauli: &Pauli) -> bool {
        self.left_of(pauli).bits == 0
    }

    /// The number of the refusal, 7 or 8, where the row depends on the others.
    pub fn add(&mut self, pauli: &Pauli) -> Result<(), u32> {
        let new = self.left_of(pauli);
        if new.bits == 0 {
            return Err(if new.p == 2 { 7 } else { 8 });
        }
        for row in &mut self.0 {
            *row = row.cleared_by(new);
        }
        let first = |row: &Row| row.bits.trailing_zeros();
        let place = self.0.partition_point(|row| first(row) < first(&new));
        self.0.insert(place, new);
        Ok(())
    }

    /// What they leave of a one in each column, of the X part and then of the Z part. No row but the one that begins in
    /// a column has a one there, so it is the only one that comes in.
    pub fn left_of_columns(&self) -> [u64; 64] {
        let mut left = std::array::from_fn(|column| 1 << column);
        for row in &self.0 {
            left[row.bits.trailing_zeros() as usize] ^= row.bits;
        }
        left
    }

    /// With whether their sign is -.
    pub fn signed(&self) -> impl Iterator<Item = (bool, Pauli)> + '_ {
        self.0.iter().map(|row| {
            let (p, a, b) = (row.p, row.a(), row.b());
            (p != (a & b).count_ones() % 4, Pauli { p, a, b })
        })
    }
}
