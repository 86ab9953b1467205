//! Admission: the checks 6 to 14, of a sheet that is read by itself and of a record.

use crate::group;
use crate::logical_errors;
use crate::product::commute;
use crate::record::Record;
use crate::sheet::{self, weight, Letter, Refusal, Row, Sheet};

/// The first fault that is met: its refusal, and with 14 two errors.
#[derive(Clone, PartialEq, Eq, Debug)]
pub struct Fault {
    pub refusal: Refusal,
    pub errors: Option<[Vec<Letter>; 2]>,
}

impl From<Refusal> for Fault {
    fn from(refusal: Refusal) -> Fault {
        let errors = None;
        Fault { refusal, errors }
    }
}

/// Reads a sheet by itself.
pub fn admit(bytes: &[u8]) -> Result<Sheet, Fault> {
    let sheet = sheet::read_alone(bytes)?;
    check(&sheet, sheet.lines())?;
    Ok(sheet)
}

/// Check 15 of a record, and then 6 to 14. The caller says on which line w stands.
pub fn check_record(record: &Record, claim_line: usize) -> Result<(), Fault> {
    check(&record.within_limits()?, claim_line)
}

/// Checks 6 to 14.
pub fn check(sheet: &Sheet, claim_line: usize) -> Result<(), Fault> {
    check_but_distance(sheet, claim_line)?;
    check_distance(sheet, claim_line)
}

/// Checks 6 to 13.
pub fn check_but_distance(sheet: &Sheet, claim_line: usize) -> Result<(), Refusal> {
    group::check(&sheet.generators)?;
    check_logicals(sheet)?;
    check_claim(sheet, claim_line)
}

/// An x or z row, which pair it belongs to, and its line.
struct Logical<'a> {
    family: char,
    pair: usize,
    line: usize,
    row: &'a Row,
}

impl Logical<'_> {
    fn refusal(&self, number: u32) -> Refusal {
        let family = Some(self.family);
        Refusal {
            family,
            ..Refusal::new(number, self.line)
        }
    }

    /// Partners have to anticommute, and any other two to commute.
    fn pairs_with(&self, other: &Logical) -> bool {
        let partners = self.pair == other.pair && self.family != other.family;
        commute(self.row, other.row) != partners
    }
}

/// The logicals in the order of their lines.
fn logicals(sheet: &Sheet) -> Vec<Logical<'_>> {
    let families = [('x', &sheet.xs), ('z', &sheet.zs)];
    let rows = families
        .into_iter()
        .flat_map(|(family, rows)| (0..).zip(rows).map(move |(pair, row)| (family, pair, row)));
    let lines = 3 + sheet.generators.len()..;
    let logical = |(line, (family, pair, row))| Logical {
        family,
        pair,
        line,
        row,
    };
    lines.zip(rows).map(logical).collect()
}

/// Check 9 over all logicals, then 10.
fn check_logicals(sheet: &Sheet) -> Result<(), Refusal> {
    let logicals = logicals(sheet);
    let is_detected = |logical: &&Logical| detected(sheet, logical.row);
    if let Some(logical) = logicals.iter().find(is_detected) {
        return Err(logical.refusal(9));
    }
    for (i, later) in logicals.iter().enumerate() {
        if !logicals[..i]
            .iter()
            .all(|earlier| earlier.pairs_with(later))
        {
            return Err(later.refusal(10));
        }
    }
    Ok(())
}

fn detected(sheet: &Sheet, row: &Row) -> bool {
    sheet.generators.iter().any(|g| !commute(g, row))
}

/// Checks 11 to 13.
fn check_claim(sheet: &Sheet, line: usize) -> Result<(), Refusal> {
    let (minus, letters) = (false, sheet.claim.clone());
    let claim = Row { minus, letters };
    if weight(&claim.letters) != sheet.d {
        return Err(Refusal::new(11, line));
    }
    if detected(sheet, &claim) {
        return Err(Refusal::new(12, line));
    }
    match group::member(&sheet.generators, &claim.letters) {
        Some(_) => Err(Refusal::new(13, line)),
        None => Ok(()),
    }
}

fn check_distance(sheet: &Sheet, line: usize) -> Result<(), Fault> {
    let Some(letters) = logical_errors::earliest(sheet, sheet.d - 1) else {
        return Ok(());
    };
    let errors = Some(halves(&letters));
    let refusal = Refusal::new(14, line);
    Err(Fault { refusal, errors })
}

/// The first half of the letters other than I, rounded up, and the others; I in the places of those that are missing.
fn halves(letters: &[Letter]) -> [Vec<Letter>; 2] {
    let struck: Vec<usize> = (0..letters.len())
        .filter(|&qubit| letters[qubit] != Letter::I)
        .collect();
    let (first, second) = struck.split_at(struck.len().div_ceil(2));
    [first, second].map(|qubits| {
        let mut half = vec![Letter::I; letters.len()];
        for &qubit in qubits {
            half[qubit] = letters[qubit];
        }
        half
    })
}

#[cfg(test)]
mod tests {
    use super::*;
    use crate::samples::{self, A, CLASH, EIGHT, FOUR, K, NINE, SEVEN_OTHER_ROWS};
    use crate::sheet::letters_text;

    /// The number, line, family and errors of the refusal, as one text.
    fn admitted(text: impl AsRef<[u8]>) -> Result<(), String> {
        let Err(Fault { refusal, errors }) = admit(text.as_ref()) else {
            return Ok(());
        };
        let Refusal { number, line, .. } = refusal;
        let mut said = format!("{number} {line}");
        said.extend(refusal.family.map(|key| format!(" {key}")));
        for error in errors.iter().flatten() {
            said += " ";
            said += std::str::from_utf8(&letters_text(error)).unwrap();
        }
        Err(said)
    }

    fn refused(text: &str) -> String {
        admitted(text).expect_err(text)
    }

    #[test]
    fn starred_sheets_have_their_answers() {
        let refusals = [
            None,
            None,
            Some("14 9 IIXYI IIIIX"),
            Some("13 9"),
            Some("11 9"),
            Some("12 9"),
            Some("9 7 x"),
            Some("10 8 z"),
            Some("7 5 g"),
            Some("8 5 g"),
            None,
            None,
        ];
        for (text, refusal) in samples::starred().iter().zip(refusals) {
            assert_eq!(admitted(text).err().as_deref(), refusal, "{text}");
        }
    }

    #[test]
    fn sheets_at_the_edges_have_their_answers() {
        assert_eq!(refused(CLASH), "6 4 g");
        assert_eq!(refused(FOUR), "10 6 x");
        for text in [NINE, EIGHT, SEVEN_OTHER_ROWS] {
            assert_eq!(admitted(text), Ok(()), "{text}");
        }
        for text in samples::repetitions() {
            assert_eq!(admitted(&text), Ok(()));
        }
        assert_eq!(refused(&samples::repetition(25)), "3 1");
    }

    #[test]
    fn each_number_of_a_sheet_is_met() {
        assert_eq!(refused(&"n".repeat(4097)), "1 0");
        assert_eq!(refused(&(A.to_string() + "\n")), "2 10");
        assert_eq!(refused(&A.replace("n=5", "n=25")), "3 1");
        assert_eq!(refused(&A.replace("d=3", "d=8")), "4 2");
        assert_eq!(refused("n=5\nd=3\n"), "5 3");
        assert_eq!(refused(&A.replace("g=+ZXIXZ", "g=+XXIXZ")), "6 6 g");
        assert_eq!(refused(&A.replace("g=+ZXIXZ", "g=-XYIYX")), "7 6 g");
        assert_eq!(refused(&A.replace("g=+ZXIXZ", "g=+XYIYX")), "8 6 g");
        assert_eq!(refused(&A.replace("z=+ZZZZZ", "z=+ZZZZX")), "9 8 z");
        assert_eq!(refused(&A.replace("z=+ZZZZZ", "z=-XZZXI")), "10 8 z");
        assert_eq!(refused(&A.replace("d=3", "d=2")), "11 9");
        assert_eq!(refused(&A.replace("w=IYYIX", "w=IYYIY")), "12 9");
        let member = A.replace("d=3", "d=4").replace("w=IYYIX", "w=XYIYX");
        assert_eq!(refused(&member), "13 9");
        let heavier = A.replace("d=3", "d=5").replace("w=IYYIX", "w=ZZZZZ");
        assert_eq!(refused(&heavier), "14 9 IIXYI IIIIX");
    }

    #[test]
    fn the_first_half_is_rounded_up() {
        let repetition = samples::repetition(3);
        let heavier = repetition.replace("d=1", "d=3").replace("w=ZII", "w=XXX");
        assert_eq!(refused(&heavier), "14 7 IIZ III");
        let four = "n=4\nd=3\ng=+XXXX\ng=+ZZZZ\nx=+XXII\nx=+XIXI\nz=+ZIZI\nz=+ZZII\nw=XYZI\n";
        assert_eq!(refused(four), "14 9 IIXI IIIX");
    }

    #[test]
    fn nine_goes_over_all_logicals_before_ten() {
        let text =
            |x: &str, z: &str| format!("n=3\nd=1\ng=+ZZI\nx=+XXI\nx=+{x}\nz=+ZII\nz=+{z}\nw=IIX\n");
        assert_eq!(admitted(text("IIX", "IIZ")), Ok(()));
        assert_eq!(refused(&text("ZII", "XII")), "9 7 z");
        assert_eq!(refused(&text("ZII", "IIZ")), "10 5 x");
        assert_eq!(refused(&text("XII", "IIX")), "9 5 x");
        assert_eq!(refused(&text("IIX", "IIX")), "10 7 z");
        assert_eq!(refused(&text("IIX", "XXZ")), "10 7 z");
    }

    #[test]
    fn a_record_has_its_limits_first_and_the_line_that_is_given() {
        let record = |text: &str| Record::of(&sheet::read_alone(text.as_bytes()).unwrap());
        assert_eq!(check_record(&record(K), 77), Ok(()));
        let mut outside = record(CLASH);
        assert_eq!(check_record(&outside, 77).unwrap_err().refusal.line, 4);
        outside.d = 8;
        let limits = Err(Refusal::new(15, 0).into());
        assert_eq!(check_record(&outside, 77), limits);
        assert_eq!(check_record(&Record::EMPTY, 77), limits);
        let weight = Err(Refusal::new(11, 77).into());
        assert_eq!(check_record(&record(&samples::starred()[4]), 77), weight);
    }
}
