//! The lines of a sheet, to a record.

use super::refusal;
use reinoften::{Code, Pauli, Refusal};

pub const PLUS_I: Pauli = Pauli { p: 0, a: 0, b: 0 };

/// The record of a sheet, the line of w, and the bytes behind it.
pub struct Read<'a> {
    pub code: Code,
    pub claim_line: usize,
    pub behind: &'a [u8],
}

pub fn read_alone(bytes: &[u8]) -> Result<Read<'_>, Refusal> {
    let read = read_lines(bytes)?;
    match read.behind {
        [] => Ok(read),
        _ => Err(refusal(2, read.claim_line + 1)),
    }
}

pub fn read_lines(bytes: &[u8]) -> Result<Read<'_>, Refusal> {
    if bytes.len() > 4096 {
        return Err(refusal(1, 0));
    }
    let mut lines = Lines {
        rest: bytes,
        next: 1,
    };
    let (n, d) = numbers(&mut lines)?;
    let (r, g) = generators(&mut lines, n)?;
    let code = Code {
        n,
        r,
        d,
        g,
        x: lines.rows(b"x=", n - r, n)?,
        z: lines.rows(b"z=", n - r, n)?,
        w: lines.take(b"w=", n, letters)?,
    };
    Ok(Read {
        code,
        claim_line: lines.next - 1,
        behind: lines.rest,
    })
}

/// Those of the first two lines, n and d.
fn numbers(lines: &mut Lines) -> Result<(usize, usize), Refusal> {
    let digits = if lines.rest.get(3) == Some(&b'\n') {
        1
    } else {
        2
    };
    let n = lines.take(b"n=", digits, number)?;
    if !(2..=24).contains(&n) {
        return Err(refusal(3, 1));
    }
    let d = lines.take(b"d=", 1, number)?;
    if !(1..=7).contains(&d) {
        return Err(refusal(4, 2));
    }
    Ok((n, d))
}

fn generators(lines: &mut Lines, n: usize) -> Result<(usize, [Pauli; 32]), Refusal> {
    let mut rows = [PLUS_I; 32];
    let mut r = 0;
    while lines.rest.starts_with(b"g=") {
        if r == n - 1 {
            return Err(lines.refusal(5));
        }
        rows[r] = lines.take(b"g=", n + 1, signed)?;
        r += 1;
    }
    if r == 0 {
        return Err(lines.refusal(5));
    }
    Ok((r, rows))
}

/// The lines that are still to be read, and the number of the next one.
struct Lines<'a> {
    rest: &'a [u8],
    next: usize,
}

impl Lines<'_> {
    fn refusal(&self, number: u32) -> Refusal {
        refusal(number, self.next)
    }

    /// Takes the next line, whose value has so many bytes.
    fn take<T>(
        &mut self,
        key: &[u8; 2],
        len: usize,
        form: impl Fn(&[u8]) -> Option<T>,
    ) -> Result<T, Refusal> {
        let taken = self
            .rest
            .split_at_checked(len + 3)
            .and_then(|(line, rest)| {
                let value = line.strip_prefix(key)?.strip_suffix(b"\n")?;
                Some((form(value)?, rest))
            });
        let (value, rest) = taken.ok_or(self.refusal(2))?;
        self.rest = rest;
        self.next += 1;
        Ok(value)
    }

    fn rows(&mut self, key: &[u8; 2], count: usize, n: usize) -> Result<[Pauli; 32], Refusal> {
        let mut rows = [PLUS_I; 32];
        for row in &mut rows[..count] {
            *row = self.take(key, n + 1, signed)?;
        }
        Ok(rows)
    }
}

/// One or two digits, the first not 0.
fn number(value: &[u8]) -> Option<usize> {
    match *value {
        [one @ b'1'..=b'9'] => Some(usize::from(one - b'0')),
        [ten @ b'1'..=b'9', one @ b'0'..=b'9'] => {
            Some(10 * usize::from(ten - b'0') + usize::from(one - b'0'))
        }
        _ => None,
    }
}

fn signed(value: &[u8]) -> Option<Pauli> {
    let (sign, value) = value.split_first()?;
    let minus = match sign {
        b'+' => 0,
        b'-' => 2,
        _ => return None,
    };
    let row = letters(value)?;
    let p = (row.p + minus) % 4;
    Some(Pauli { p, ..row })
}

/// With sign +.
fn letters(value: &[u8]) -> Option<Pauli> {
    let (mut a, mut b) = (0_u32, 0);
    for (qubit, byte) in value.iter().enumerate() {
        let (x, z) = match byte {
            b'I' => (0, 0),
            b'X' => (1, 0),
            b'Y' => (1, 1),
            b'Z' => (0, 1),
            _ => return None,
        };
        a |= x << qubit;
        b |= z << qubit;
    }
    let p = (a & b).count_ones() % 4;
    Some(Pauli { p, a, b })
}
