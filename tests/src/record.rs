//! The code record: numbers and Paulis with masks, as a caller hands it over. Its limits are those under which it has
//! a sheet, so it is looked at qubit by qubit and turned into one.

use crate::group;
use crate::sheet::{letters_text, line, Letter, Refusal, Row, Sheet};

/// i^p D(a,b), with qubit j at bit j - 1 of both masks, and p read modulo 4.
#[derive(Clone, Copy, PartialEq, Eq, Debug)]
pub struct Pauli {
    pub p: u32,
    pub a: u32,
    pub b: u32,
}

/// The rows of each family are as many as it has room for. Within its limits those that are not used are +I.
#[derive(Clone, PartialEq, Eq, Debug)]
pub struct Record {
    pub n: usize,
    pub r: usize,
    pub d: usize,
    pub g: [Pauli; 32],
    pub x: [Pauli; 32],
    pub z: [Pauli; 32],
    pub w: Pauli,
}

const PLUS_I: Pauli = Pauli { p: 0, a: 0, b: 0 };

/// Changes of a record have the numbers from 1 to this.
pub const LAST_CHANGE: usize = 29;

/// Changes after which a record is the same but for phases that are read modulo 4.
pub const SAME_MODULO_4: [usize; 3] = [14, 19, 21];

impl Record {
    /// What stands beside a refused reading.
    pub const EMPTY: Record = Record {
        n: 0,
        r: 0,
        d: 0,
        g: [PLUS_I; 32],
        x: [PLUS_I; 32],
        z: [PLUS_I; 32],
        w: PLUS_I,
    };

    pub fn of(sheet: &Sheet) -> Record {
        let (minus, letters) = (false, sheet.claim.clone());
        Record {
            n: sheet.n,
            r: sheet.generators.len(),
            d: sheet.d,
            g: paulis(&sheet.generators),
            x: paulis(&sheet.xs),
            z: paulis(&sheet.zs),
            w: Pauli::of(&Row { minus, letters }),
        }
    }

    /// The sheet of a record, or none where the record is outside its limits.
    pub fn sheet(&self) -> Option<Sheet> {
        let Record { n, r, d, .. } = *self;
        let numbers = (2..=24).contains(&n) && (1..n).contains(&r) && (1..=7).contains(&d);
        if !numbers {
            return None;
        }
        let claim = self.w.row(n).filter(|row| !row.minus)?;
        Some(Sheet {
            n,
            d,
            generators: rows(&self.g, r, n)?,
            xs: rows(&self.x, n - r, n)?,
            zs: rows(&self.z, n - r, n)?,
            claim: claim.letters,
        })
    }

    /// Changes the record so that no sheet has it. Rows count from 0 here, so the first generator that is not used is
    /// `g[r]`.
    pub fn change(&mut self, number: usize) {
        let (n, r) = (self.n, self.r);
        match number {
            0 => {}
            1 => self.n = 1,
            2 => self.n = 25,
            3 => self.n = usize::MAX,
            4 => self.r = 0,
            5 => self.r = n,
            6 => self.r = n + 1,
            7 => self.r = usize::MAX,
            8 => self.d = 0,
            9 => self.d = 8,
            10 => self.d += 1,
            11 => self.w.p += 1,
            12 => self.w.p += 2,
            13 => self.w.b |= 1 << n,
            14 => self.add_4_to_each_phase(),
            15 => self.g[0].a |= 1 << n,
            16 => self.g[0].b |= 1 << n,
            17 => self.g[0].p += 1,
            18 => self.g[0].p += 2,
            19 => self.g[0].p += u32::MAX - 3,
            20 => self.g[r] = Pauli { p: 0, a: 1, b: 0 },
            21 => self.g[31].p = 8,
            22 => self.g[31].b = 1,
            23 => self.x[0].a |= 1 << 31,
            24 => self.x[0].p += 1,
            25 => self.x[0].p += 2,
            26 => self.x[n - r] = Pauli { p: 0, a: 0, b: 1 },
            27 => self.z[0].b |= 1 << 31,
            28 => self.z[0].p += 3,
            29 => self.z[31] = Pauli { p: 2, a: 0, b: 0 },
            _ => panic!("no change has the number {number}"),
        }
    }

    fn add_4_to_each_phase(&mut self) {
        let Record { g, x, z, w, .. } = self;
        for pauli in g.iter_mut().chain(x).chain(z).chain([w]) {
            pauli.p += 4;
        }
    }

    /// Check 15.
    pub fn within_limits(&self) -> Result<Sheet, Refusal> {
        self.sheet().ok_or(Refusal::new(15, 0))
    }

    /// Writes the sheet to the front of a buffer and gives its count of bytes; a refusal, 15 before 17, leaves the
    /// buffer as it is.
    pub fn write(&self, out: &mut [u8]) -> Result<usize, Refusal> {
        put(&self.within_limits()?.text(), out)
    }

    /// Writes the `h=` lines likewise; here 6 to 8 come between 15 and 17.
    pub fn write_canonical(&self, out: &mut [u8]) -> Result<usize, Refusal> {
        put(&group::canonical_text(&self.within_limits()?)?, out)
    }

    /// Writes the line of one row of n letters, whatever it is: its sign is - where it is not +, and bits above qubit n
    /// are left out. 15 is about n alone.
    pub fn write_row(&self, key: &str, pauli: Pauli, out: &mut [u8]) -> Result<usize, Refusal> {
        put(&pauli.line(key, self.qubits()?), out)
    }

    /// Writes the same line without the sign.
    pub fn write_letters(&self, key: &str, pauli: Pauli, out: &mut [u8]) -> Result<usize, Refusal> {
        let letters = pauli.letters(self.qubits()?);
        put(&line(key, &letters_text(&letters)), out)
    }

    /// Writes such lines of all rows that are used, and no more than there are.
    pub fn write_families(&self, out: &mut [u8]) -> Result<usize, Refusal> {
        let n = self.qubits()?;
        let k = n.saturating_sub(self.r);
        let lines = |key, rows: &[Pauli], used| -> Vec<u8> {
            let used = rows.iter().take(used);
            used.flat_map(|pauli| pauli.line(key, n)).collect()
        };
        let (g, x) = (lines("g=", &self.g, self.r), lines("x=", &self.x, k));
        put(&[g, x, lines("z=", &self.z, k)].concat(), out)
    }

    fn qubits(&self) -> Result<usize, Refusal> {
        let allowed = (2..=24).contains(&self.n);
        allowed.then_some(self.n).ok_or(Refusal::new(15, 0))
    }

    /// Checks 15 and 6 to 8; gives the generators.
    pub fn checked_generators(&self) -> Result<Vec<Row>, Refusal> {
        let generators = self.within_limits()?.generators;
        group::check(&generators)?;
        Ok(generators)
    }
}

/// Writes the line of one number.
pub fn write_number(key: &str, number: usize, out: &mut [u8]) -> Result<usize, Refusal> {
    put(&line(key, number.to_string().as_bytes()), out)
}

/// Writes the lines of n and d.
pub fn write_numbers(n: usize, d: usize, out: &mut [u8]) -> Result<usize, Refusal> {
    put(format!("n={n}\nd={d}\n").as_bytes(), out)
}

/// Check 17, and the text at the front.
pub fn put(text: &[u8], out: &mut [u8]) -> Result<usize, Refusal> {
    let room = out.get_mut(..text.len());
    room.ok_or(Refusal::new(17, 0))?.copy_from_slice(text);
    Ok(text.len())
}

fn paulis<const ROOM: usize>(rows: &[Row]) -> [Pauli; ROOM] {
    let mut paulis = [PLUS_I; ROOM];
    for (pauli, row) in paulis.iter_mut().zip(rows) {
        *pauli = Pauli::of(row);
    }
    paulis
}

/// The first rows of a family, or none where one of them is no signed row on n qubits or one behind them is not +I.
fn rows(paulis: &[Pauli], used: usize, n: usize) -> Option<Vec<Row>> {
    let (used, unused) = paulis.split_at(used);
    if !unused.iter().all(Pauli::is_plus_i) {
        return None;
    }
    used.iter().map(|pauli| pauli.row(n)).collect()
}

impl Pauli {
    pub fn of(row: &Row) -> Pauli {
        let mut pauli = PLUS_I;
        for (qubit, &letter) in row.letters.iter().enumerate() {
            let (a, b) = bits(letter);
            pauli.a += a << qubit;
            pauli.b += b << qubit;
        }
        pauli.p = phase(row.minus, &row.letters);
        pauli
    }

    /// The signed row on n qubits that this is, or none where a bit stands above qubit n or the phase is that of no
    /// sign.
    fn row(&self, n: usize) -> Option<Row> {
        let letters = self.letters(32);
        if letters[n..].iter().any(|&letter| letter != Letter::I) {
            return None;
        }
        let signs = [false, true];
        let minus = signs.into_iter().find(|&minus| self.has_sign(minus))?;
        let letters = self.letters(n);
        Some(Row { minus, letters })
    }

    /// Its line with a key, of n letters; its sign is - where it is not +.
    fn line(&self, key: &str, n: usize) -> Vec<u8> {
        let (minus, letters) = (!self.has_sign(false), self.letters(n));
        line(key, &Row { minus, letters }.text())
    }

    pub fn letters(&self, n: usize) -> Vec<Letter> {
        let at = |qubit: usize| (self.a >> qubit & 1, self.b >> qubit & 1);
        (0..n).map(|qubit| letter(at(qubit))).collect()
    }

    fn has_sign(&self, minus: bool) -> bool {
        phase(minus, &self.letters(32)) == self.p % 4
    }

    fn is_plus_i(&self) -> bool {
        (self.p % 4, self.a, self.b) == (0, 0, 0)
    }
}

/// The phase of a signed row: 1 for each Y, since Y is i times XZ, and 2 for a minus.
fn phase(minus: bool, letters: &[Letter]) -> u32 {
    let ys = letters.iter().filter(|&&l| l == Letter::Y).count() as u32;
    (ys + 2 * u32::from(minus)) % 4
}

fn bits(letter: Letter) -> (u32, u32) {
    match letter {
        Letter::I => (0, 0),
        Letter::X => (1, 0),
        Letter::Z => (0, 1),
        Letter::Y => (1, 1),
    }
}

fn letter(wanted: (u32, u32)) -> Letter {
    let found = Letter::ALL.into_iter().find(|&l| bits(l) == wanted);
    found.expect("the four letters have the four pairs of bits")
}

#[cfg(test)]
mod tests {
    use super::*;
    use crate::samples::{self, A};
    use crate::sheet::read_alone;

    fn record(text: &str) -> Record {
        Record::of(&read_alone(text.as_bytes()).expect(text))
    }

    #[test]
    fn a_record_keeps_its_sheet() {
        for text in [samples::published(), samples::repetitions()].concat() {
            let sheet = read_alone(text.as_bytes()).unwrap();
            assert_eq!(Record::of(&sheet).sheet(), Some(sheet));
        }
    }

    #[test]
    fn a_row_is_masks_and_a_phase() {
        let signs = A.replace("g=+XZZXI", "g=-XYZYI");
        let first = record(&signs).g[0];
        let (p, a, b) = (0, 0b01011, 0b01110);
        assert_eq!(first, Pauli { p, a, b });
        assert_eq!(record(A).w.p, 2);
    }

    #[test]
    fn the_writer_fills_the_front_or_nothing() {
        let mut out = vec![b'.'; A.len() + 3];
        assert_eq!(record(A).write(&mut out), Ok(A.len()));
        assert_eq!(out, (A.to_string() + "...").as_bytes());
        let mut short = vec![b'.'; A.len() - 1];
        let refusal = |number| Err(Refusal::new(number, 0));
        assert_eq!(record(A).write(&mut short), refusal(17));
        assert_eq!(Record::EMPTY.write(&mut short), refusal(15));
        assert!(short.iter().all(|&byte| byte == b'.'));
    }

    #[test]
    fn the_line_of_a_row_shows_n_letters_and_of_a_number_its_digits() {
        let mut out = [b'.'; 9];
        let record = record(&A.replace("g=+XZZXI", "g=-XYZYI"));
        assert_eq!(record.write_row("h=", record.g[0], &mut out), Ok(9));
        assert_eq!(&out, b"h=-XYZYI\n");
        let (p, a, b) = (1, 1 << 5 | 1, 1 << 5);
        assert_eq!(record.write_row("h=", Pauli { p, a, b }, &mut out), Ok(9));
        assert_eq!(&out, b"h=+XIIII\n");
        assert_eq!(record.write_letters("e=", record.g[0], &mut out), Ok(8));
        assert_eq!(&out, b"e=XYZYI\n\n");
        assert_eq!(write_number("d=", 3014, &mut out), Ok(7));
        assert_eq!(&out, b"d=3014\n\n\n");
        let refusal = Err(Refusal::new(17, 0));
        assert_eq!(write_number("d=", 3014, &mut out[..6]), refusal);
    }

    #[test]
    fn a_sheet_is_its_numbers_its_rows_and_w() {
        let (record, mut out) = (record(A), vec![b'.'; A.len()]);
        let front = write_numbers(record.n, record.d, &mut out).unwrap();
        let rows = record.write_families(&mut out[front..]).unwrap();
        let end = front + rows;
        let claim = record.write_letters("w=", record.w, &mut out[end..]);
        assert_eq!(claim, Ok(A.len() - end));
        assert_eq!(out, A.as_bytes());
        let mut changed = Record::EMPTY;
        assert_eq!(changed.write_families(&mut out), Err(Refusal::new(15, 0)));
        (changed.n, changed.r) = (2, usize::MAX);
        let mut long = [b'.'; 32 * 6];
        assert_eq!(changed.write_families(&mut long), Ok(long.len()));
        assert_eq!(long, "g=+II\n".repeat(32).as_bytes());
    }

    #[test]
    fn each_limit_is_a_limit() {
        let outside = |change: fn(&mut Record)| {
            let mut changed = record(A);
            change(&mut changed);
            assert_eq!(changed.sheet(), None);
        };
        outside(|c| c.n = 1);
        outside(|c| c.n = 25);
        outside(|c| c.n = usize::MAX);
        outside(|c| c.r = 0);
        outside(|c| c.r = c.n);
        outside(|c| c.r = c.n + 1);
        outside(|c| c.r = usize::MAX);
        outside(|c| c.d = 0);
        outside(|c| c.d = 8);
        outside(|c| c.g[0].a |= 1 << 5);
        outside(|c| c.g[0].b |= 1 << 5);
        outside(|c| c.x[0].a |= 1 << 31);
        outside(|c| c.z[0].b |= 1 << 31);
        outside(|c| c.w.b |= 1 << 5);
        outside(|c| c.g[3].p += 1);
        outside(|c| c.x[0].p += 1);
        outside(|c| c.z[0].p += 3);
        outside(|c| c.w.p += 1);
        outside(|c| c.w.p += 2);
        outside(|c| c.g[4].a = 1);
        outside(|c| c.g[31].b = 1);
        outside(|c| c.x[1].b = 1);
        outside(|c| c.z[31].p = 2);
    }

    #[test]
    fn phases_are_read_modulo_4() {
        for number in SAME_MODULO_4 {
            let mut changed = record(A);
            changed.change(number);
            assert_ne!(changed, record(A));
            assert_eq!(changed.sheet(), record(A).sheet());
        }
    }
}
