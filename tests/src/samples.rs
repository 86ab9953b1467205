//! The sample sheets A to L, other sheets at the edges, and published codes, as text.

use crate::random::Random;
use crate::sheet::{Letter, Row, Sheet};

/// The five-qubit code, as in table 3.2.
pub const A: &str = "\
n=5
d=3
g=+XZZXI
g=+IXZZX
g=+XIXZZ
g=+ZXIXZ
x=+XXXXX
z=+ZZZZZ
w=IYYIX
";

/// Dependent generators: the third row is minus the product of the first two.
pub const I: &str = "\
n=4
d=1
g=+XXII
g=+ZZII
g=+YYII
x=+IIXI
z=+IIZI
w=IIXI
";

/// The repetition code of two qubits.
pub const K: &str = "\
n=2
d=1
g=+ZZ
x=+XX
z=+ZI
w=ZI
";

/// The seven-qubit code, with the rows of the Hamming code's parity checks.
pub const L: &str = "\
n=7
d=3
g=+IIIXXXX
g=+IXXIIXX
g=+XIXIXIX
g=+IIIZZZZ
g=+IZZIIZZ
g=+ZIZIZIZ
x=+XXXXXXX
z=+ZZZZZZZ
w=XXXIIII
";

/// The two generators anticommute.
pub const CLASH: &str = "\
n=3
d=1
g=+XII
g=+ZII
x=+IXI
z=+IZI
w=IXI
";

/// The nine-qubit code, which corrects one error on any qubit though some errors share a syndrome.
pub const NINE: &str = "\
n=9
d=3
g=+ZZIIIIIII
g=+IZZIIIIII
g=+IIIZZIIII
g=+IIIIZZIII
g=+IIIIIIZZI
g=+IIIIIIIZZ
g=+XXXXXXIII
g=+IIIXXXXXX
x=+ZZZZZZZZZ
z=+XXXXXXXXX
w=ZIIZIIZII
";

/// The nine-qubit code with other rows than NINE.
pub const NINE_OTHER_ROWS: &str = "\
n=9
d=3
g=+ZZIIIIIII
g=+ZIZIIIIII
g=+IIIZZIIII
g=+IIIZIZIII
g=+IIIIIIZZI
g=+IIIIIIZIZ
g=+XXXXXXIII
g=+XXXIIIXXX
x=+ZZZZZZZZZ
z=+XXXXXXXXX
w=IIIIIIXXX
";

/// The eight-qubit code.
pub const EIGHT: &str = "\
n=8
d=3
g=+XXXXXXXX
g=+ZZZZZZZZ
g=+IXIXYZYZ
g=+IXZYIXZY
g=+IYXZXZIY
x=+XXIIIZIZ
x=+XIXZIIZI
x=+XIIZXZII
z=+IZIZIZIZ
z=+IIZZIIZZ
z=+IIIIZZZZ
w=IIIIIZXY
";

/// The seven-qubit code with other rows than L.
pub const SEVEN_OTHER_ROWS: &str = "\
n=7
d=3
g=+XXXXIII
g=+XXIIXXI
g=+XIXIXIX
g=+ZZZZIII
g=+ZZIIZZI
g=+ZIZIZIZ
x=+IIIIXXX
z=+IIIIZZZ
w=IIIIXXX
";

/// Four qubits; as printed the two X rows anticommute.
pub const FOUR: &str = "\
n=4
d=2
g=+XZZX
g=+YXXY
x=+XXXX
x=+XIXZ
z=+YZYI
z=+IXZZ
w=IIXY
";

/// The starred sheets, A to L.
pub fn starred() -> [String; 12] {
    [
        A.to_string(),
        A.replace("x=+", "x=-"),
        A.replace("d=3", "d=5").replace("w=IYYIX", "w=XXXXX"),
        A.replace("d=3", "d=4").replace("w=IYYIX", "w=XZZXI"),
        A.replace("w=IYYIX", "w=XXXXX"),
        A.replace("w=IYYIX", "w=XXXII"),
        A.replace("x=+XXXXX", "x=+XIIII"),
        A.replace("z=+ZZZZZ", "z=+XXXXX"),
        I.to_string(),
        I.replace("+YYII", "-YYII"),
        K.to_string(),
        L.to_string(),
    ]
}

/// The samples and the published codes. All have the form of a sheet, and some fail the checks that come after it.
pub fn published() -> Vec<String> {
    let others = [CLASH, NINE, NINE_OTHER_ROWS, EIGHT, SEVEN_OTHER_ROWS, FOUR];
    let mut sheets = starred().to_vec();
    sheets.extend(others.map(str::to_string));
    sheets
}

/// The repetition codes of every n.
pub fn repetitions() -> Vec<String> {
    (2..=24).map(repetition).collect()
}

/// The repetition code: ZZ on each pair of neighbours. Of two qubits it is K.
pub fn repetition(n: usize) -> String {
    let generators = (0..n - 1).map(|at| {
        let (before, behind) = ("I".repeat(at), "I".repeat(n - 2 - at));
        format!("g=+{before}ZZ{behind}\n")
    });
    let generators: String = generators.collect();
    let (all_x, first_z) = ("X".repeat(n), "Z".to_string() + &"I".repeat(n - 1));
    format!("n={n}\nd=1\n{generators}x=+{all_x}\nz=+{first_z}\nw={first_z}\n")
}

/// A row as it stands in a sheet.
#[cfg(test)]
pub fn row(text: &str) -> Row {
    crate::sheet::row(text.as_bytes(), text.len() - 1).expect("a sign and letters")
}

/// A sheet with r generators, whose rows are any letters: of lawful form, and nothing more.
pub fn any_rows(random: &mut Random, n: usize, r: usize, d: usize) -> Sheet {
    Sheet {
        n,
        d,
        generators: rows(random, r, n),
        xs: rows(random, n - r, n),
        zs: rows(random, n - r, n),
        claim: letters(random, n),
    }
}

fn rows(random: &mut Random, count: usize, n: usize) -> Vec<Row> {
    (0..count).map(|_| any_row(random, n)).collect()
}

pub fn any_row(random: &mut Random, n: usize) -> Row {
    Row {
        minus: random.pick(&[false, true]),
        letters: letters(random, n),
    }
}

fn letters(random: &mut Random, n: usize) -> Vec<Letter> {
    (0..n).map(|_| random.pick(&Letter::ALL)).collect()
}
