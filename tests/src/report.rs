//! The report: what is said of a sheet and the `s=` lines behind it, as text.

use crate::admission::{self, Fault};
use crate::decoding::{Decoded, Decoder};
use crate::group::canonical_text;
use crate::record::Record;
use crate::sheet::{letters_text, line, read_lines, Refusal, Sheet};

/// Lines about the code and about each syndrome; or, where the input has a fault, the lines of its refusal alone.
pub fn report(input: &[u8]) -> Vec<u8> {
    lines(input).unwrap_or_else(|fault| refused(&fault))
}

/// Checks 1 to 5, then 6 to 14, and then 16 of each line behind w.
fn lines(input: &[u8]) -> Result<Vec<u8>, Fault> {
    let (sheet, used) = read_lines(input)?;
    admission::check(&sheet, sheet.lines())?;
    let mut report = numbers(&sheet);
    report.extend(canonical_text(&sheet)?);
    report.extend(corrections(&sheet, &input[used..])?);
    Ok(report)
}

fn numbers(sheet: &Sheet) -> Vec<u8> {
    let Sheet { n, d, .. } = sheet;
    let k = n - sheet.generators.len();
    let t = (d - 1) / 2;
    format!("n={n}\nk={k}\nd={d}\nt={t}\n").into_bytes()
}

/// One line for each that stands behind w.
fn corrections(sheet: &Sheet, behind: &[u8]) -> Result<Vec<u8>, Refusal> {
    let decoder = Decoder::of(&Record::of(sheet));
    let mut lines = Vec::new();
    for (at, text) in behind.split_inclusive(|&byte| byte == b'\n').enumerate() {
        let correction =
            syndrome(text).and_then(|characters| correction(&decoder, sheet.n, characters));
        let correction = correction.ok_or(Refusal::new(16, sheet.lines() + 1 + at))?;
        lines.extend(line("c=", &correction));
    }
    Ok(lines)
}

/// What stands between `s=` and the line feed.
fn syndrome(line: &[u8]) -> Option<&[u8]> {
    line.strip_prefix(b"s=")?.strip_suffix(b"\n")
}

/// The letters of the correction, or the word for there being none; nothing where the characters are no syndrome.
fn correction(decoder: &Decoder, n: usize, characters: &[u8]) -> Option<Vec<u8>> {
    let mut letters = vec![b'.'; n];
    match decoder.decode(characters, &mut letters).ok()? {
        Decoded::Correction => Some(letters),
        Decoded::None => Some(b"none".to_vec()),
    }
}

/// The number and the line, and with 14 the two errors.
fn refused(fault: &Fault) -> Vec<u8> {
    let Refusal {
        number, line: at, ..
    } = fault.refusal;
    let mut text = format!("r={number}\nat={at}\n").into_bytes();
    for (key, letters) in ["e=", "f="].into_iter().zip(fault.errors.iter().flatten()) {
        text.extend(line(key, &letters_text(letters)));
    }
    text
}

#[cfg(test)]
mod tests {
    use super::*;
    use crate::codes::single;
    use crate::damage::filled;
    use crate::product::commute;
    use crate::samples::{self, A, CLASH, EIGHT, FOUR, I, K, L, NINE};
    use crate::sheet::{read_alone, Letter};

    fn of(input: impl AsRef<[u8]>) -> String {
        String::from_utf8(report(input.as_ref())).expect("a report is text")
    }

    /// The report of a refusal that shows no errors.
    fn refusal(number: u32, line: usize) -> String {
        format!("r={number}\nat={line}\n")
    }

    /// The report of a sheet whose canonical generators are those of A.
    fn of_five_qubits(corrections: &str) -> String {
        format!("n=5\nk=1\nd=3\nt=1\nh=+YZIZY\nh=+IXZZX\nh=+ZZXIX\nh=+ZIZYY\n{corrections}")
    }

    #[test]
    fn input_a_has_its_output() {
        let input = "n=5\nd=3\ng=+XZZXI\ng=+IXZZX\ng=+XIXZZ\ng=+ZXIXZ\nx=+XXXXX\nz=+ZZZZZ\nw=IYYIX\ns=0001\ns=1010\n";
        let output =
            "n=5\nk=1\nd=3\nt=1\nh=+YZIZY\nh=+IXZZX\nh=+ZZXIX\nh=+ZIZYY\nc=XIIII\nc=ZIIII\n";
        assert_eq!(of(input), output);
        assert_eq!(of(A), of_five_qubits(""));
        assert_eq!(of(A.to_string() + "s=0000\n"), of_five_qubits("c=IIIII\n"));
    }

    #[test]
    fn starred_sheets_have_their_reports() {
        let seven = "h=+XIXIXIX\nh=+IXXIIXX\nh=+IIIXXXX\nh=+ZIZIZIZ\nh=+IZZIIZZ\nh=+IIIZZZZ\n";
        let reports = [
            of_five_qubits(""),
            of_five_qubits(""),
            refusal(14, 9) + "e=IIXYI\nf=IIIIX\n",
            refusal(13, 9),
            refusal(11, 9),
            refusal(12, 9),
            refusal(9, 7),
            refusal(10, 8),
            refusal(7, 5),
            refusal(8, 5),
            "n=2\nk=1\nd=1\nt=0\nh=+ZZ\n".to_string(),
            format!("n=7\nk=1\nd=3\nt=1\n{seven}"),
        ];
        for (text, report) in samples::starred().into_iter().zip(reports) {
            assert_eq!(of(&text), report, "{text}");
        }
        let k = K.to_string() + "s=0\ns=1\n";
        assert_eq!(of(k), "n=2\nk=1\nd=1\nt=0\nh=+ZZ\nc=II\nc=none\n");
        let l = L.to_string() + "s=010010\ns=010001\n";
        assert_eq!(of(l), of(L) + "c=IYIIIII\nc=none\n");
    }

    #[test]
    fn sheets_at_the_edges_have_their_reports() {
        for n in [1, 25] {
            assert_eq!(of(A.replace("n=5", &format!("n={n}"))), refusal(3, 1));
        }
        for n in [2, 24] {
            let numbers = format!("n={n}\nk=1\nd=1\nt=0\n");
            assert!(of(samples::repetition(n)).starts_with(&numbers));
        }
        assert_eq!(of(A.replace("d=3", "d=8")), refusal(4, 2));
        let three = samples::repetition(3).replace("x=", "g=+ZIZ\nx=");
        assert_eq!(of(three), refusal(5, 5));
        assert_eq!(of(CLASH), refusal(6, 4));
        assert!(of(EIGHT).starts_with("n=8\nk=3\nd=3\nt=1\nh="));
        assert_eq!(of(FOUR), refusal(10, 6));
    }

    #[test]
    fn z_on_any_qubit_of_a_block_has_one_correction() {
        let generators = read_alone(NINE.as_bytes()).unwrap().generators;
        let lines = [0, 1, 2].map(|qubit| {
            let z = single(9, qubit, Letter::Z);
            let bits = generators.iter().map(|row| !commute(row, &z));
            let characters: String = bits.map(|bit| if bit { '1' } else { '0' }).collect();
            format!("s={characters}\n")
        });
        let expected = of(NINE) + &"c=IIZIIIIII\n".repeat(3);
        assert_eq!(of(NINE.to_string() + &lines.concat()), expected);
    }

    #[test]
    fn a_line_behind_w_is_16_where_it_is_no_syndrome() {
        let off_form = [
            "\n",
            "s\n",
            "s=\n",
            "s=000\n",
            "s=00000\n",
            "s=0002\n",
            "s=000 \n",
            "s=0000",
            "s=0000\r\n",
            "s=0000 \n",
            " s=0000\n",
            "S=0000\n",
            "s =0000\n",
            "s==0000\n",
            "s0000\n",
            "0000\n",
            "c=0000\n",
            "w=IYYIX\n",
            "g=+XZZXI\n",
            "s=000\n0\n",
            "s=+000\n",
            "s=0O00\n",
            "s",
            "\0",
            "s=000\0\n",
            "\r\n",
        ];
        for text in off_form {
            assert_eq!(of(A.to_string() + text), refusal(16, 10), "{text:?}");
            let third = format!("{A}s=0001\ns=1010\n{text}s=1111\n");
            // the missing line feed is that of the line behind
            assert_eq!(of(third), refusal(16, 12), "{text:?}");
        }
        assert_eq!(
            report(&[A.as_bytes(), b"\xff"].concat()),
            refusal(16, 10).as_bytes()
        );
        let two = format!("{A}s=0001\ns=2\ns=3\n");
        assert_eq!(of(two), refusal(16, 11));
    }

    #[test]
    fn faults_of_the_sheet_come_before_16() {
        assert_eq!(of(CLASH.to_string() + "\n"), refusal(6, 4));
        assert_eq!(of(I.to_string() + "s=2\n"), refusal(7, 5));
        let heavier = samples::starred()[2].clone() + "s=";
        assert_eq!(of(heavier), refusal(14, 9) + "e=IIXYI\nf=IIIIX\n");
        assert_eq!(of(A.replace("w=", "v=") + "s=2\n"), refusal(2, 9));
    }

    #[test]
    fn each_number_of_the_form_has_its_report() {
        assert_eq!(of(""), refusal(2, 1));
        assert_eq!(of(A.trim_end()), refusal(2, 9));
        assert_eq!(of("n=25\n"), refusal(3, 1));
        assert_eq!(of("n=5\nd=9\n"), refusal(4, 2));
        assert_eq!(of("n=5\nd=3\n"), refusal(5, 3));
    }

    #[test]
    fn the_whole_input_has_at_most_4096_bytes() {
        let filled = |len| filled(K.as_bytes(), b"s=0\n", len);
        assert_eq!((4096 - K.len()) % 4, 1);
        let lines = (4095 - K.len()) / 4;
        assert_eq!(of(filled(4095)), of(K) + &"c=II\n".repeat(lines));
        assert_eq!(of(filled(4096)), refusal(16, 7 + lines));
        for len in [4097, 4099, 100_000] {
            assert_eq!(of(filled(len)), refusal(1, 0));
        }
    }
}
