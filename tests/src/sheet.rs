//! The sheet: its lines, the checks 1 to 5 that reading them makes, and the text that the writer gives.

/// In the order in which letters are compared.
#[derive(Clone, Copy, PartialEq, Eq, PartialOrd, Ord, Hash, Debug)]
pub enum Letter {
    I,
    X,
    Y,
    Z,
}

impl Letter {
    pub const ALL: [Letter; 4] = [Letter::I, Letter::X, Letter::Y, Letter::Z];

    fn read(byte: u8) -> Option<Letter> {
        Letter::ALL.into_iter().find(|l| l.byte() == byte)
    }

    fn byte(self) -> u8 {
        match self {
            Letter::I => b'I',
            Letter::X => b'X',
            Letter::Y => b'Y',
            Letter::Z => b'Z',
        }
    }
}

#[derive(Clone, PartialEq, Eq, Debug)]
pub struct Row {
    pub minus: bool,
    pub letters: Vec<Letter>,
}

impl Row {
    pub fn text(&self) -> Vec<u8> {
        let sign = if self.minus { b'-' } else { b'+' };
        [vec![sign], letters_text(&self.letters)].concat()
    }
}

pub fn letters_text(letters: &[Letter]) -> Vec<u8> {
    letters.iter().map(|l| l.byte()).collect()
}

/// How many letters are not I.
pub fn weight(letters: &[Letter]) -> usize {
    letters.iter().filter(|&&l| l != Letter::I).count()
}

/// What the table of refusals has in every line: the number, and the line named (0 where none is). 6 to 10 are about
/// a row, and have the letter of its key too.
#[derive(Clone, Copy, PartialEq, Eq, Debug)]
pub struct Refusal {
    pub number: u32,
    pub line: usize,
    pub family: Option<char>,
}

impl Refusal {
    /// A refusal that has no family.
    pub fn new(number: u32, line: usize) -> Refusal {
        let family = None;
        Refusal {
            number,
            line,
            family,
        }
    }
}

#[derive(Clone, PartialEq, Eq, Debug)]
pub struct Sheet {
    pub n: usize,
    pub d: usize,
    pub generators: Vec<Row>,
    pub xs: Vec<Row>,
    pub zs: Vec<Row>,
    pub claim: Vec<Letter>,
}

impl Sheet {
    /// How many lines it has, which is the number of the w line.
    pub fn lines(&self) -> usize {
        2 + self.generators.len() + self.xs.len() + self.zs.len() + 1
    }

    /// What the writer gives.
    pub fn text(&self) -> Vec<u8> {
        let mut text = format!("n={}\nd={}\n", self.n, self.d).into_bytes();
        let families = [("g=", &self.generators), ("x=", &self.xs), ("z=", &self.zs)];
        for (key, rows) in families {
            for row in rows {
                text.extend(line(key, &row.text()));
            }
        }
        text.extend(line("w=", &letters_text(&self.claim)));
        text
    }
}

pub fn line(key: &str, value: &[u8]) -> Vec<u8> {
    [key.as_bytes(), value, b"\n"].concat()
}

/// Reads the lines of a sheet, and leaves what stands behind w, as a report does. Gives the count of bytes used
/// beside the sheet.
pub fn read_lines(bytes: &[u8]) -> Result<(Sheet, usize), Refusal> {
    if bytes.len() > 4096 {
        return Err(Refusal::new(1, 0));
    }
    let mut lines = Lines {
        rest: bytes,
        next: 1,
    };
    let n = lines.take("n=", one_or_two_digits)?;
    if !(2..=24).contains(&n) {
        return Err(Refusal::new(3, 1));
    }
    let d = lines.take("d=", one_digit)?;
    if !(1..=7).contains(&d) {
        return Err(Refusal::new(4, 2));
    }
    let generators = read_generators(&mut lines, n)?;
    let k = n - generators.len();
    let sheet = Sheet {
        n,
        d,
        generators,
        xs: lines.take_rows("x=", k, n)?,
        zs: lines.take_rows("z=", k, n)?,
        claim: lines.take("w=", |value| letters(value, n))?,
    };
    Ok((sheet, bytes.len() - lines.rest.len()))
}

/// Reads a sheet by itself: nothing may stand behind w.
pub fn read_alone(bytes: &[u8]) -> Result<Sheet, Refusal> {
    let (sheet, used) = read_lines(bytes)?;
    if used < bytes.len() {
        let line = sheet.lines() + 1;
        return Err(Refusal::new(2, line));
    }
    Ok(sheet)
}

/// The g lines: from 1 to n - 1, up to the first line that does not begin `g=`. Check 5 looks at a line before its
/// form does.
fn read_generators(lines: &mut Lines, n: usize) -> Result<Vec<Row>, Refusal> {
    let mut generators = Vec::new();
    loop {
        match (lines.begins("g="), generators.len()) {
            (false, 0) => return Err(lines.refusal(5)),
            (false, _) => return Ok(generators),
            (true, count) if count == n - 1 => return Err(lines.refusal(5)),
            (true, _) => generators.push(lines.take("g=", |value| row(value, n))?),
        }
    }
}

/// The lines that are still to be read.
struct Lines<'a> {
    rest: &'a [u8],
    /// the number of the next one
    next: usize,
}

impl Lines<'_> {
    fn begins(&self, key: &str) -> bool {
        self.rest.starts_with(key.as_bytes())
    }

    fn refusal(&self, number: u32) -> Refusal {
        Refusal::new(number, self.next)
    }

    /// Takes the next line and gives its value. The refusal is 2 where there is no such line: no line feed, not this
    /// key, or a value that is off its form.
    fn take<T>(&mut self, key: &str, form: impl Fn(&[u8]) -> Option<T>) -> Result<T, Refusal> {
        let value_and_rest = || {
            let end = self.rest.iter().position(|&byte| byte == b'\n')?;
            let value = self.rest[..end].strip_prefix(key.as_bytes())?;
            Some((form(value)?, &self.rest[end + 1..]))
        };
        let (value, rest) = value_and_rest().ok_or(self.refusal(2))?;
        self.rest = rest;
        self.next += 1;
        Ok(value)
    }

    fn take_rows(&mut self, key: &str, count: usize, n: usize) -> Result<Vec<Row>, Refusal> {
        (0..count)
            .map(|_| self.take(key, |value| row(value, n)))
            .collect()
    }
}

fn one_digit(value: &[u8]) -> Option<usize> {
    match value {
        [digit @ b'1'..=b'9'] => Some(usize::from(digit - b'0')),
        _ => None,
    }
}

fn one_or_two_digits(value: &[u8]) -> Option<usize> {
    match value {
        [first, second @ b'0'..=b'9'] => {
            Some(10 * one_digit(&[*first])? + usize::from(second - b'0'))
        }
        _ => one_digit(value),
    }
}

pub fn row(value: &[u8], n: usize) -> Option<Row> {
    let (sign, rest) = value.split_first()?;
    let minus = match sign {
        b'+' => false,
        b'-' => true,
        _ => return None,
    };
    let letters = letters(rest, n)?;
    Some(Row { minus, letters })
}

pub fn letters(value: &[u8], n: usize) -> Option<Vec<Letter>> {
    let letters: Option<Vec<Letter>> = value.iter().map(|&byte| Letter::read(byte)).collect();
    letters.filter(|letters| letters.len() == n)
}

#[cfg(test)]
mod tests {
    use super::*;
    use crate::random::Random;
    use crate::samples::{self, A, K};

    fn refused(text: &str) -> (u32, usize) {
        let refusal = read_lines(text.as_bytes()).expect_err(text);
        (refusal.number, refusal.line)
    }

    fn read(text: &str) -> Sheet {
        let (sheet, used) = read_lines(text.as_bytes()).expect(text);
        assert_eq!(used, text.len());
        assert_eq!(read_alone(text.as_bytes()), Ok(sheet.clone()));
        sheet
    }

    #[test]
    fn sheet_a_has_its_values() {
        use Letter::{I, X, Y, Z};
        let sheet = read(A);
        assert_eq!((sheet.n, sheet.d, sheet.lines()), (5, 3, 9));
        let letters = vec![X, Z, Z, X, I];
        assert_eq!(sheet.generators.len(), 4);
        assert_eq!(
            sheet.generators[0],
            Row {
                minus: false,
                letters
            }
        );
        assert_eq!(sheet.xs[0].letters, [X; 5]);
        assert_eq!(sheet.zs[0].letters, [Z; 5]);
        assert_eq!(sheet.claim, [I, Y, Y, I, X]);
        assert!(read(&A.replace("x=+", "x=-")).xs[0].minus);
    }

    #[test]
    fn samples_are_read_and_written_as_they_were() {
        for text in [samples::published(), samples::repetitions()].concat() {
            let sheet = read(&text);
            assert_eq!(sheet.text(), text.as_bytes());
            assert_eq!(sheet.lines(), text.lines().count());
        }
    }

    #[test]
    fn any_rows_are_read_as_they_were_and_the_longest_sheet_has_1352_bytes() {
        let mut random = Random(1);
        for n in 2..=24 {
            for r in 1..n {
                let d = 1 + r % 7;
                let sheet = samples::any_rows(&mut random, n, r, d);
                let text = sheet.text();
                assert_eq!(text.len() == 1352, (n, r) == (24, 1));
                assert!(text.len() <= 1352);
                assert_eq!(read_alone(&text), Ok(sheet));
            }
        }
    }

    #[test]
    fn check_1_counts_the_whole_input_first() {
        let long = |text: &str, len: usize| text.to_string() + &"s".repeat(len - text.len());
        assert!(read_lines(long(A, 4096).as_bytes()).is_ok());
        assert_eq!(refused(&long(A, 4097)), (1, 0));
        assert_eq!(refused(&long("n=1\n", 4097)), (1, 0));
        assert_eq!(refused(&long("n=1\n", 4096)), (3, 1));
    }

    #[test]
    fn check_2_names_the_line_that_fails_or_is_missing() {
        assert_eq!(refused(""), (2, 1));
        for n in ["n=", "n=0", "n=05", "n=100", "n=+5", "n=5 ", "N=5", "n= 5"] {
            assert_eq!(refused(&A.replace("n=5", n)), (2, 1), "{n}");
        }
        for d in ["d=", "d=0", "d=10", "d=03", "d3", "g=3"] {
            assert_eq!(refused(&A.replace("d=3", d)), (2, 2), "{d}");
        }
        for g in [
            "g=",
            "g=IXZZX",
            "g=+IXZZ",
            "g=+IXZZXI",
            "g=++IXZZX",
            "g=+IXzZX",
        ] {
            assert_eq!(refused(&A.replace("g=+IXZZX", g)), (2, 4), "{g}");
        }
        assert_eq!(refused(&A.replace("x=+XXXXX\n", "")), (2, 7));
        assert_eq!(refused(&A.replace("z=+ZZZZZ\n", "")), (2, 8));
        assert_eq!(refused(&A.replace("w=IYYIX\n", "")), (2, 9));
        assert_eq!(refused(&A.replace("w=", "w=+")), (2, 9));
        assert_eq!(refused(&A.replace("z=", "x=+XXXXX\nz=")), (2, 8));
        assert_eq!(refused(&A.replace("w=", "z=+ZZZZZ\nw=")), (2, 9));
        // one g line fewer: k is 2, and the second x line is missing
        assert_eq!(refused(&A.replace("g=+ZXIXZ\n", "")), (2, 7));
    }

    #[test]
    fn input_that_stops_is_2_at_that_line_and_5_at_the_first_g() {
        for len in 0..A.len() {
            let text = &A[..len];
            let line = 1 + text.matches('\n').count();
            let number = if line == 3 && !text.contains("g=") {
                5
            } else {
                2
            };
            assert_eq!(refused(text), (number, line), "{text:?}");
        }
    }

    #[test]
    fn bytes_behind_w_are_2_for_a_sheet_by_itself() {
        for behind in ["\n", "s=0001\ns=1010\n", "x", A] {
            let text = A.to_string() + behind;
            assert_eq!(read_lines(text.as_bytes()), Ok((read(A), A.len())));
            let line = 10;
            assert_eq!(read_alone(text.as_bytes()), Err(Refusal::new(2, line)));
        }
    }

    #[test]
    fn checks_3_and_4_bound_the_numbers() {
        for n in ["n=1", "n=25", "n=99"] {
            assert_eq!(refused(&A.replace("n=5", n)), (3, 1), "{n}");
        }
        assert_eq!(refused("n=25"), (2, 1));
        assert_eq!(refused("n=25\n"), (3, 1));
        assert_eq!(read(&samples::repetition(2)), read(K));
        assert_eq!(read(&samples::repetition(24)).n, 24);
        assert_eq!(refused(&samples::repetition(25)), (3, 1));
        for d in ["d=8", "d=9"] {
            assert_eq!(refused(&A.replace("d=3", d)), (4, 2), "{d}");
        }
        for d in 1..=7 {
            assert_eq!(read(&A.replace("d=3", &format!("d={d}"))).d, d);
        }
    }

    #[test]
    fn check_5_comes_before_the_form_of_a_g_line() {
        assert_eq!(refused("n=3\nd=1\ng=+ZZI\ng=+IZZ\ng=+ZIZ\nw=ZII\n"), (5, 5));
        assert_eq!(refused("n=3\nd=1\ng=+ZZI\ng=+IZZ\ng="), (5, 5));
        assert_eq!(refused("n=3\nd=1\ng=+ZZI\ng=+IZZ\ng"), (2, 5));
        assert_eq!(refused("n=3\nd=1\ng=+ZZI\ng=*"), (2, 4));
        for first in ["", "g", "\n", "x=+XXX\n", "G=+ZZI\n", " g=+ZZI\n"] {
            assert_eq!(refused(&format!("n=3\nd=1\n{first}")), (5, 3), "{first:?}");
        }
        assert_eq!(refused("n=3\nd=1\ng=\n"), (2, 3));
    }
}
