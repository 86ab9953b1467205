//! Texts to be read as sheets, and changes of the records that are read.

use super::{each_change, unchanged, Part};
use crate::cases::{Case, Kind};
use crate::codes::sizes;
use crate::damage::filled;
use crate::random::Random;
use crate::samples::{self, A, EIGHT, K, NINE};
use crate::sheet::Letter;
use crate::{damage, lists};

type Texts = Vec<Vec<u8>>;

/// Bytes that a text is damaged with.
const BYTES: &[u8] = b"x \r\0\xff\n0129gxzw=+-IYXZ";

pub fn parts() -> Vec<Part> {
    let mut random = Random(0x5eed_0005_4ee7);
    let changed_a = each_change(Kind::Sheet, [A]);
    let to_be_changed = to_be_changed(&mut random);
    let changed = each_change(Kind::Sheet, to_be_changed.clone());
    vec![
        Part::kept(texts(samples::published())),
        Part::kept(texts([2, 24].map(samples::repetition))),
        Part::kept(texts(refused_by_each_number())),
        Part::kept(texts(damage::prefixes(A.as_bytes()))),
        Part::kept(changed_a),
        Part::sampled(8, changed),
        Part::sampled(0, texts(samples::repetitions())),
        Part::sampled(4, texts(any_form(&mut random))),
        Part::sampled(3, texts(codes(&mut random))),
        Part::sampled(10, texts(cut(&mut random))),
        Part::sampled(40, texts(damaged(&mut random))),
        Part::sampled(15, texts(lines_out_of_place())),
        Part::sampled(40, texts(misnumbered())),
        Part::sampled(15, texts(miscounted())),
        Part::sampled(1, texts(beyond_the_room(&mut random))),
        Part::sampled(50, texts(misshapen())),
        Part::sampled(10, texts(behind_w())),
        Part::sampled(0, texts(long(&mut random))),
        Part::kept(unchanged(Kind::Lines, [A, EIGHT])),
        Part::sampled(4, unchanged(Kind::Lines, any_form(&mut random))),
        Part::sampled(6, each_change(Kind::Lines, to_be_changed)),
    ]
}

fn texts<T: Into<Vec<u8>>>(texts: impl IntoIterator<Item = T>) -> Vec<Case> {
    unchanged(Kind::Sheet, texts)
}

fn any_rows(random: &mut Random, n: usize, r: usize, d: usize) -> Vec<u8> {
    samples::any_rows(random, n, r, d).text()
}

/// A sheet of n qubits, with any count of generators.
fn any_sheet(random: &mut Random, n: usize) -> Vec<u8> {
    let (r, d) = (1 + random.index(n - 1), 1 + random.index(7));
    any_rows(random, n, r, d)
}

/// Each number that reading a sheet can give, 1 to 5, and 2 for bytes behind w.
fn refused_by_each_number() -> [String; 8] {
    [
        "X".repeat(4097),
        A.replace("w=IYYIX", "w=IYYIx"),
        A.replace("n=5", "n=1"),
        A.replace("n=5", "n=25"),
        A.replace("d=3", "d=8"),
        "n=3\nd=1\n".to_string(),
        "n=3\nd=1\ng=+ZZI\ng=+IZZ\ng=+ZIZ\n".to_string(),
        A.to_string() + "s=0001\ns=1010\n",
    ]
}

/// Every size, and every d.
fn any_form(random: &mut Random) -> Texts {
    let text = |(n, r)| any_rows(random, n, r, 1 + (n + r) % 7);
    sizes().map(text).collect()
}

/// Every size, with rows that pass the checks 6 to 10.
fn codes(random: &mut Random) -> Texts {
    let text = |(n, r)| lists::code(random, n, r).text();
    sizes().map(text).collect()
}

/// Records of several sizes, the smallest and the longest among them, and the record beside a refused reading.
fn to_be_changed(random: &mut Random) -> Texts {
    let longest = any_rows(random, 24, 1, 6);
    assert_eq!(longest.len(), 1352);
    let mut texts: Texts = (2..=24).map(|n| any_sheet(random, n)).collect();
    texts.extend([
        K.into(),
        EIGHT.into(),
        any_rows(random, 24, 23, 4),
        longest,
        // all rows +I: with r = 0 and with r = n nothing but r is outside its limits
        "n=3\nd=1\ng=+III\ng=+III\nx=+III\nz=+III\nw=III\n".into(),
        Vec::new(),
        // refused at the last line: what was read of the others is not in the record either
        A.replace("w=IYYIX", "w=IYYI").into(),
    ]);
    texts
}

/// Sheets of every size, the longest among them, up to each byte.
fn cut(random: &mut Random) -> Texts {
    let mut texts: Texts = (2..=24).map(|n| any_sheet(random, n)).collect();
    texts.push(any_rows(random, 24, 1, 7));
    texts.extend([K, NINE, EIGHT].map(|text| text.as_bytes().to_vec()));
    let cut = |text: &Vec<u8>| damage::prefixes(text);
    texts.iter().flat_map(cut).collect()
}

/// K, the shortest sheet there is, and A, with each byte damaged in each of these ways; other sheets with some byte
/// damaged.
fn damaged(random: &mut Random) -> Texts {
    let mut texts = Texts::new();
    for text in [K, A].map(str::as_bytes) {
        for at in 0..text.len() {
            texts.extend(BYTES.iter().map(|&byte| damage::replaced(text, at, byte)));
            texts.extend(b"\nX+ 1=\r".map(|byte| damage::inserted(text, at, byte)));
            texts.push(damage::deleted(text, at));
        }
    }
    for n in (2..=24).flat_map(|n| [n; 20]) {
        let text = any_sheet(random, n);
        let at = random.index(text.len());
        texts.push(damage::replaced(&text, at, random.pick(BYTES)));
        texts.push(damage::inserted(&text, at, random.pick(BYTES)));
        texts.push(damage::deleted(&text, at));
    }
    texts
}

/// Two lines exchanged, a line twice, a line missing.
fn lines_out_of_place() -> Texts {
    let ways = [
        damage::lines_swapped,
        damage::lines_doubled,
        damage::lines_dropped,
    ];
    let texts = [K, A, EIGHT].map(str::as_bytes);
    ways.iter()
        .flat_map(|way| texts.map(way).concat())
        .collect()
}

/// A with other lines for n and d, whole and cut behind that line, with its line feed and without.
fn misnumbered() -> Texts {
    const NS: [&str; 29] = [
        "n=", "n=0", "n=00", "n=1", "n=01", "n=2", "n=4", "n=05", "n=6", "n=9", "n=10", "n=15",
        "n=20", "n=24", "n=25", "n=30", "n=99", "n=100", "n=024", "n=5 ", "n= 5", "n=+5", "n=-5",
        "n=5.", "n=a", "N=5", "n5", "n:5", "5",
    ];
    const DS: [&str; 25] = [
        "d=", "d=0", "d=1", "d=2", "d=4", "d=5", "d=6", "d=7", "d=8", "d=9", "d=10", "d=03",
        "d=33", "d=3 ", "d= 3", "d=+3", "d=-3", "d=x", "D=3", "d3", "d", "", "n=3", "t=3", "d==3",
    ];
    let mut texts = Texts::new();
    for line in NS {
        texts.push(A.replace("n=5", line).into());
        texts.push(line.into());
        texts.push(format!("{line}\n").into());
    }
    for line in DS {
        texts.push(A.replace("d=3", line).into());
        texts.push(format!("n=5\n{line}").into());
        texts.push(format!("n=5\n{line}\n").into());
    }
    texts
}

/// Four qubits with 0 to 4 lines of each of g, x and z: right for 3 of these counts.
fn miscounted() -> Texts {
    let mut texts = Texts::new();
    for g in 0..5 {
        for x in 0..5 {
            for z in 0..5 {
                let (g, x, z) = (
                    "g=-XYZI\n".repeat(g),
                    "x=+YYIZ\n".repeat(x),
                    "z=-IIYX\n".repeat(z),
                );
                texts.push(format!("n=4\nd=2\n{g}{x}{z}w=IZYX\n").into());
            }
        }
    }
    texts
}

/// Twenty-four qubits, as many as there may be, with a line too many of each family, and with more letters than a
/// mask has bits.
fn beyond_the_room(random: &mut Random) -> Texts {
    let mut many_g = samples::any_rows(random, 24, 23, 5);
    many_g.generators.push(many_g.generators[0].clone());
    let sheet = samples::any_rows(random, 24, 1, 5);
    let mut many_x = sheet.clone();
    many_x.xs.push(sheet.xs[0].clone());
    let mut many_z = sheet.clone();
    many_z.zs.push(sheet.zs[0].clone());
    let mut long_g = sheet.clone();
    long_g.generators[0].letters.extend([Letter::Y; 9]);
    let mut long_w = sheet.clone();
    long_w.claim.extend([Letter::Y; 9]);
    [many_g, many_x, many_z, long_g, long_w]
        .map(|sheet| sheet.text())
        .to_vec()
}

/// The first lines of a sheet of three qubits, then a line with each key in many forms. The form may be right and the
/// key wrong, too: among them are `g=` after the last g line there can be and a lone `g` where the input ends.
fn misshapen() -> Texts {
    const FORMS: [&str; 25] = [
        "?",
        "?=",
        "?\n",
        "?=\n",
        "?=+",
        "?=+\n",
        "?=+XYZ\n",
        "?=-XYZ\n",
        "?=XYZ\n",
        "?=+XY\n",
        "?=-XYZI\n",
        "?=XY\n",
        "?=XYZI\n",
        "?=++XYZ\n",
        "?=-+XYZ\n",
        "?=XYZ+\n",
        "?=*XYZ\n",
        "?=+XyZ\n",
        "?=+X.Z\n",
        "?=+X Z\n",
        "?=+XYZ\r\n",
        "? =+XYZ\n",
        " ?=+XYZ\n",
        "?==+XYZ\n",
        "\n",
    ];
    let sheet = samples::repetition(3);
    let lines: Vec<&str> = sheet.split_inclusive('\n').collect();
    let mut texts = Texts::new();
    for first in 2..lines.len() {
        for key in ["g", "x", "z", "w"] {
            let line = |form: &str| lines[..first].concat() + &form.replace('?', key);
            texts.extend(FORMS.map(|form| line(form).into_bytes()));
        }
    }
    texts
}

/// Lawful sheets with something behind them, which only a sheet read by itself may not have.
fn behind_w() -> Texts {
    const BEHIND: [&[u8]; 14] = [
        b"\n",
        b"X",
        b" ",
        b"\0",
        b"\xff",
        b"\r\n",
        b"s",
        b"s=",
        b"s=0001\n",
        b"s=0001\ns=1010\n",
        b"s=1",
        b"w=ZI\n",
        b"\n\n",
        K.as_bytes(),
    ];
    let mut texts = Texts::new();
    for sheet in [K, A, EIGHT] {
        texts.extend(BEHIND.map(|behind| [sheet.as_bytes(), behind].concat()));
    }
    texts
}

/// Inputs as long as they may be, and longer.
fn long(random: &mut Random) -> Texts {
    let longest = any_rows(random, 24, 1, 7);
    vec![
        filled(A.as_bytes(), b"s=0101\n", 4096),
        filled(A.as_bytes(), b"s=0101\n", 4097),
        filled(&longest, b"\n", 4096),
        filled(&longest, b"\n", 4097),
        filled(b"n=1\n", b"X", 4096),
        filled(b"n=1\n", b"X", 4097),
        filled(K.as_bytes(), K.as_bytes(), 6000),
    ]
}
